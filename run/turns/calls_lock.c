/* SPDX-License-Identifier: MIT OR Apache-2.0 */
/*
 * calls_lock.c - locks and semaphores. The thread that unlocks one goes on, and may lock it again. A
 * thread that waits in the kernel might take it before: it depends on the host. So a thread that
 * finds it locked is blocked in the table, and tries again when it has the turn.
 */
#define _GNU_SOURCE
#include "turns.h"

#include <pthread.h>
#include <semaphore.h>
#include <threads.h>

/* Bits of glibc's kinds of mutexes: pthread/pthreadP.h. */
enum { KIND_MASK = 3, KIND_SHARED = 128 };

static uint64_t key_of(const void *lock, bool is_shared)
{
	return is_shared ? KEY_SHARED : (uint64_t)lock;
}

static uint64_t key_of_mutex(const pthread_mutex_t *mutex)
{
	return key_of(mutex, mutex->__data.__kind & KIND_SHARED);
}

/* Tries to lock by a call that returns an error number, and else blocks, until a time if there is a
 * limit. If turns end meanwhile, waits by another call. */
#define LOCK(key, limit, try, wait)                                         \
	({                                                                  \
		enum block_end end = BLOCK_UNLOCKED;                        \
		int error;                                                  \
		turn_have(CALLER);                                          \
		turn_need(CALLER);                                          \
		while ((error = (try)) == EBUSY && turn_is_for(CALLER) &&   \
		       end != BLOCK_LATE)                                   \
			end = turn_block(key, false, limit);                \
		error != EBUSY	    ? error :                               \
		end == BLOCK_LATE ? ETIMEDOUT :                             \
				    (wait);                                 \
	})

/* Returns whether a call with a time is answered here. The C library refuses the others. */
static bool is_timed(const void *caller, clockid_t clock, const struct timespec *time)
{
	return turn_is_for(caller) && time->tv_nsec >= 0 && time->tv_nsec < 1000000000 &&
	       (clock == CLOCK_REALTIME || clock == CLOCK_MONOTONIC);
}

/* Returns whether a mutex that checks errors is the thread's own. */
static bool is_relocked(const pthread_mutex_t *mutex)
{
	return (mutex->__data.__kind & KIND_MASK) == PTHREAD_MUTEX_ERRORCHECK &&
	       mutex->__data.__owner == turn_thread();
}

EXPORT int pthread_mutex_lock(pthread_mutex_t *mutex)
{
	if (!turn_is_for(CALLER) || is_relocked(mutex))
		return REAL(pthread_mutex_lock)(mutex);
	return LOCK(key_of_mutex(mutex), NULL, REAL(pthread_mutex_trylock)(mutex),
		    REAL(pthread_mutex_lock)(mutex));
}

BEFORE(int, pthread_mutex_trylock, (pthread_mutex_t * mutex), (mutex))

/* Whoever locks it next may free its memory. */
EXPORT int pthread_mutex_unlock(pthread_mutex_t *mutex)
{
	uint64_t key = key_of_mutex(mutex);
	int error;

	turn_have(CALLER);
	error = REAL(pthread_mutex_unlock)(mutex);
	turn_unblock(key);
	return error;
}

static uint64_t key_of_rwlock(const pthread_rwlock_t *lock)
{
	return key_of(lock, lock->__data.__shared);
}

static bool is_written_by_own(const pthread_rwlock_t *lock)
{
	return lock->__data.__cur_writer == turn_thread();
}

EXPORT int pthread_rwlock_rdlock(pthread_rwlock_t *lock)
{
	if (!turn_is_for(CALLER) || is_written_by_own(lock))
		return REAL(pthread_rwlock_rdlock)(lock);
	return LOCK(key_of_rwlock(lock), NULL, REAL(pthread_rwlock_tryrdlock)(lock),
		    REAL(pthread_rwlock_rdlock)(lock));
}

EXPORT int pthread_rwlock_wrlock(pthread_rwlock_t *lock)
{
	if (!turn_is_for(CALLER) || is_written_by_own(lock))
		return REAL(pthread_rwlock_wrlock)(lock);
	return LOCK(key_of_rwlock(lock), NULL, REAL(pthread_rwlock_trywrlock)(lock),
		    REAL(pthread_rwlock_wrlock)(lock));
}

BEFORE(int, pthread_rwlock_tryrdlock, (pthread_rwlock_t * lock), (lock))
BEFORE(int, pthread_rwlock_trywrlock, (pthread_rwlock_t * lock), (lock))

EXPORT int pthread_rwlock_unlock(pthread_rwlock_t *lock)
{
	uint64_t key = key_of_rwlock(lock);
	int error;

	turn_have(CALLER);
	error = REAL(pthread_rwlock_unlock)(lock);
	turn_unblock(key);
	return error;
}

/* glibc's semaphore, since version 2.21: internaltypes.h. */
struct semaphore {
	uint64_t value;
	int is_shared;
};

static uint64_t key_of_semaphore(const sem_t *semaphore)
{
	return key_of(semaphore, ((const struct semaphore *)semaphore)->is_shared);
}

/* Returns 0 or an error number. */
static int wait_semaphore(sem_t *semaphore, const struct limit *limit, const void *caller)
{
	enum block_end end = BLOCK_UNLOCKED;

	pthread_testcancel();
	turn_have(caller);
	turn_need(caller);
	while (REAL(sem_trywait)(semaphore)) {
		if (errno != EAGAIN || !turn_is_on() || end)
			return end == BLOCK_LATE ? ETIMEDOUT : end ? EINTR : errno;
		end = turn_block(key_of_semaphore(semaphore), true, limit);
		if (end == BLOCK_INTERRUPTED)
			return EINTR;
	}
	return 0;
}

/* Ends a wait for a semaphore. If turns have ended meanwhile, it goes on by another call. */
#define END_WAIT(error, wait)                                   \
	({                                                      \
		int before = errno, result = (error);           \
		errno = result && result != EAGAIN ? result : before; \
		result == EAGAIN ? (wait) : result ? -1 : 0;    \
	})

EXPORT int sem_wait(sem_t *semaphore)
{
	if (!turn_is_for(CALLER))
		return REAL(sem_wait)(semaphore);
	return END_WAIT(wait_semaphore(semaphore, NULL, CALLER), REAL(sem_wait)(semaphore));
}

EXPORT int sem_clockwait(sem_t *semaphore, clockid_t clock, const struct timespec *time)
{
	struct limit limit = { clock, time };

	if (!is_timed(CALLER, clock, time))
		return REAL(sem_clockwait)(semaphore, clock, time);
	return END_WAIT(wait_semaphore(semaphore, &limit, CALLER),
			REAL(sem_clockwait)(semaphore, clock, time));
}

EXPORT int sem_timedwait(sem_t *semaphore, const struct timespec *time)
{
	struct limit limit = { CLOCK_REALTIME, time };

	if (!is_timed(CALLER, CLOCK_REALTIME, time))
		return REAL(sem_timedwait)(semaphore, time);
	return END_WAIT(wait_semaphore(semaphore, &limit, CALLER),
			REAL(sem_timedwait)(semaphore, time));
}

BEFORE(int, sem_trywait, (sem_t * semaphore), (semaphore))

EXPORT int sem_post(sem_t *semaphore)
{
	uint64_t key = key_of_semaphore(semaphore);
	int result;

	turn_have(CALLER);
	result = REAL(sem_post)(semaphore);
	turn_unblock(key);
	return result;
}

/* glibc's mutexes of C11 are those of POSIX under another name. */

EXPORT int mtx_lock(mtx_t *mutex)
{
	if (!turn_is_for(CALLER))
		return REAL(mtx_lock)(mutex);
	return pthread_mutex_lock((pthread_mutex_t *)mutex) ? thrd_error : thrd_success;
}

BEFORE(int, mtx_trylock, (mtx_t * mutex), (mutex))

EXPORT int mtx_unlock(mtx_t *mutex)
{
	if (!turn_is_for(CALLER))
		return REAL(mtx_unlock)(mutex);
	return pthread_mutex_unlock((pthread_mutex_t *)mutex) ? thrd_error : thrd_success;
}

/* Defines a call that waits for a lock until a time of a clock. */
#define TIMED(name, parameters, lock, is_own, key, clock, arguments, try)              \
	EXPORT int name parameters                                                      \
	{                                                                               \
		struct limit limit = { clock, time };                                   \
                                                                                        \
		if (!is_timed(CALLER, clock, time) || is_own(lock))                     \
			return REAL(name) arguments;                                    \
		return LOCK(key(lock), &limit, REAL(try)(lock), REAL(name) arguments);  \
	}

TIMED(pthread_mutex_timedlock, (pthread_mutex_t * mutex, const struct timespec *time), mutex,
      is_relocked, key_of_mutex, CLOCK_REALTIME, (mutex, time), pthread_mutex_trylock)
TIMED(pthread_mutex_clocklock,
      (pthread_mutex_t * mutex, clockid_t clock, const struct timespec *time), mutex, is_relocked,
      key_of_mutex, clock, (mutex, clock, time), pthread_mutex_trylock)
TIMED(pthread_rwlock_timedrdlock, (pthread_rwlock_t * lock, const struct timespec *time), lock,
      is_written_by_own, key_of_rwlock, CLOCK_REALTIME, (lock, time), pthread_rwlock_tryrdlock)
TIMED(pthread_rwlock_timedwrlock, (pthread_rwlock_t * lock, const struct timespec *time), lock,
      is_written_by_own, key_of_rwlock, CLOCK_REALTIME, (lock, time), pthread_rwlock_trywrlock)
TIMED(pthread_rwlock_clockrdlock,
      (pthread_rwlock_t * lock, clockid_t clock, const struct timespec *time), lock,
      is_written_by_own, key_of_rwlock, clock, (lock, clock, time), pthread_rwlock_tryrdlock)
TIMED(pthread_rwlock_clockwrlock,
      (pthread_rwlock_t * lock, clockid_t clock, const struct timespec *time), lock,
      is_written_by_own, key_of_rwlock, clock, (lock, clock, time), pthread_rwlock_trywrlock)

EXPORT int mtx_timedlock(mtx_t *mutex, const struct timespec *time)
{
	int error;

	if (!turn_is_for(CALLER))
		return REAL(mtx_timedlock)(mutex, time);
	error = pthread_mutex_timedlock((pthread_mutex_t *)mutex, time);
	return !error ? thrd_success : error == ETIMEDOUT ? thrd_timedout : thrd_error;
}

AFTER(int, pthread_barrier_wait, (pthread_barrier_t * barrier), (barrier))
