/* SPDX-License-Identifier: MIT OR Apache-2.0 */
/* calls_lock.c - the calls that wait for a lock or a thread until a time. */
#define _GNU_SOURCE
#include "calls_wait.h"

#include <pthread.h>
#include <semaphore.h>
#include <threads.h>

static bool is_ours(struct machine *m, clockid_t clock,
		    const struct timespec *time)
{
	return m && time && !is_bad(time) && machine_clock(clock) >= 0;
}

/* Waits in slices by a call that ends at `until`, on the host's MONOTONIC, and
 * returns an error number. */
#define WAIT_UNTIL(clock, time, call)                                     \
	({                                                                \
		struct wait wait;                                         \
		struct timespec until;                                    \
		int error;                                                \
		wait_begin(&wait, machine(), machine_clock(clock), time); \
		wait_unmasked(&wait, -ETIMEDOUT);                         \
		do {                                                      \
			until = wait_slice_end(&wait);                    \
			error = (call);                                   \
		} while (error == ETIMEDOUT && !wait.is_reached);         \
		wait_end(&wait);                                          \
		error;                                                    \
	})

EXPORT int sem_clockwait(sem_t *semaphore, clockid_t clock,
			 const struct timespec *time)
{
	int error;

	if (!is_ours(machine(), clock, time))
		return REAL(sem_clockwait)(semaphore, clock, time);
	error = WAIT_UNTIL(
		clock, time,
		REAL(sem_clockwait)(semaphore, CLOCK_MONOTONIC, &until) ? errno
									: 0);
	return error ? refuse(error) : 0;
}

EXPORT int sem_timedwait(sem_t *restrict semaphore,
			 const struct timespec *restrict time)
{
	if (!machine())
		return REAL(sem_timedwait)(semaphore, time);
	return sem_clockwait(semaphore, CLOCK_REALTIME, time);
}

/* The longest rest of a wait that begins anew, without the call that waits. */
enum { REST_NANOS = 10000000 };

/* Sleeps for what the clocks lack when the host's time has come: a discipline may have
 * made them slower. Returns whether they have reached the wait's time. */
static bool wait_rest(struct wait *wait)
{
	uint64_t left = wait_slice(wait);

	while (left && left < REST_NANOS) {
		host_nap(left);
		left = wait_slice(wait);
	}
	return !left;
}

/*
 * The wait isn't divided in slices: a signal to the condition variable that came between
 * two of them would be lost. If the clocks were set back, it returns as if it was woken,
 * which POSIX allows, and so it does after a slice without WAKE_SIGNAL.
 */
EXPORT int pthread_cond_clockwait(pthread_cond_t *cond, pthread_mutex_t *mutex,
				  clockid_t clock, const struct timespec *time)
{
	struct machine *m = machine();
	struct timespec until;
	struct wait wait;
	int error;

	if (!is_ours(m, clock, time))
		return REAL(pthread_cond_clockwait)(cond, mutex, clock, time);
	wait_begin(&wait, m, machine_clock(clock), time);
	wait_unmasked(&wait, -ETIMEDOUT);
	until = wait_slice_end(&wait);
	error = REAL(pthread_cond_clockwait)(cond, mutex, CLOCK_MONOTONIC,
					     &until);
	if (error == ETIMEDOUT && !wait.is_reached && !wait_rest(&wait))
		error = 0;
	wait_end(&wait);
	return error;
}

EXPORT int pthread_cond_timedwait(pthread_cond_t *restrict cond,
				  pthread_mutex_t *restrict mutex,
				  const struct timespec *restrict time)
{
	/* glibc keeps the clock of the attributes in this bit */
	clockid_t clock =
		cond->__data.__wrefs & 2 ? CLOCK_MONOTONIC : CLOCK_REALTIME;

	return pthread_cond_clockwait(cond, mutex, clock, time);
}

EXPORT int pthread_mutex_clocklock(pthread_mutex_t *mutex, clockid_t clock,
				   const struct timespec *time)
{
	if (!is_ours(machine(), clock, time))
		return REAL(pthread_mutex_clocklock)(mutex, clock, time);
	return WAIT_UNTIL(clock, time,
			  REAL(pthread_mutex_clocklock)(mutex, CLOCK_MONOTONIC,
							&until));
}

EXPORT int pthread_mutex_timedlock(pthread_mutex_t *restrict mutex,
				   const struct timespec *restrict time)
{
	if (!machine())
		return REAL(pthread_mutex_timedlock)(mutex, time);
	return pthread_mutex_clocklock(mutex, CLOCK_REALTIME, time);
}

EXPORT int pthread_rwlock_clockrdlock(pthread_rwlock_t *lock, clockid_t clock,
				      const struct timespec *time)
{
	if (!is_ours(machine(), clock, time))
		return REAL(pthread_rwlock_clockrdlock)(lock, clock, time);
	return WAIT_UNTIL(clock, time,
			  REAL(pthread_rwlock_clockrdlock)(
				  lock, CLOCK_MONOTONIC, &until));
}

EXPORT int pthread_rwlock_timedrdlock(pthread_rwlock_t *restrict lock,
				      const struct timespec *restrict time)
{
	if (!machine())
		return REAL(pthread_rwlock_timedrdlock)(lock, time);
	return pthread_rwlock_clockrdlock(lock, CLOCK_REALTIME, time);
}

EXPORT int pthread_rwlock_clockwrlock(pthread_rwlock_t *lock, clockid_t clock,
				      const struct timespec *time)
{
	if (!is_ours(machine(), clock, time))
		return REAL(pthread_rwlock_clockwrlock)(lock, clock, time);
	return WAIT_UNTIL(clock, time,
			  REAL(pthread_rwlock_clockwrlock)(
				  lock, CLOCK_MONOTONIC, &until));
}

EXPORT int pthread_rwlock_timedwrlock(pthread_rwlock_t *restrict lock,
				      const struct timespec *restrict time)
{
	if (!machine())
		return REAL(pthread_rwlock_timedwrlock)(lock, time);
	return pthread_rwlock_clockwrlock(lock, CLOCK_REALTIME, time);
}

EXPORT int pthread_clockjoin_np(pthread_t thread, void **result,
				clockid_t clock, const struct timespec *time)
{
	if (!is_ours(machine(), clock, time))
		return REAL(pthread_clockjoin_np)(thread, result, clock, time);
	return WAIT_UNTIL(clock, time,
			  REAL(pthread_clockjoin_np)(thread, result,
						     CLOCK_MONOTONIC, &until));
}

EXPORT int pthread_timedjoin_np(pthread_t thread, void **result,
				const struct timespec *time)
{
	if (!machine())
		return REAL(pthread_timedjoin_np)(thread, result, time);
	return pthread_clockjoin_np(thread, result, CLOCK_REALTIME, time);
}

/* glibc's types of C11 are those of POSIX under another name. */

static int c11_result(int error)
{
	return !error		    ? thrd_success
	       : error == ETIMEDOUT ? thrd_timedout
				    : thrd_error;
}

EXPORT int cnd_timedwait(cnd_t *restrict cond, mtx_t *restrict mutex,
			 const struct timespec *restrict time)
{
	if (!machine())
		return REAL(cnd_timedwait)(cond, mutex, time);
	return c11_result(pthread_cond_clockwait((pthread_cond_t *)cond,
						 (pthread_mutex_t *)mutex,
						 CLOCK_REALTIME, time));
}

EXPORT int mtx_timedlock(mtx_t *restrict mutex,
			 const struct timespec *restrict time)
{
	if (!machine())
		return REAL(mtx_timedlock)(mutex, time);
	return c11_result(pthread_mutex_clocklock((pthread_mutex_t *)mutex,
						  CLOCK_REALTIME, time));
}
