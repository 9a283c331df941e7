/* SPDX-License-Identifier: MIT OR Apache-2.0 */
/*
 * calls_cond.c - condition variables. The C library's lock the mutex again before a thread can ask for
 * the turn, and the kernel chooses which thread a signal wakes. So here a thread waits in the table,
 * then for the turn, and then locks the mutex. A signal wakes the one that has waited longest. That is
 * so also after turns have ended: threads may wait in the table then.
 */
#define _GNU_SOURCE
#include "turns.h"
#include "clocks/host.h"

#include <pthread.h>
#include <sched.h>
#include <threads.h>

enum { COND_SHARED = 1 }; /* a bit of glibc's __wrefs */

/* Returns the key. What processes share may have another address in each, so it has a number, in the
 * first word. glibc's counts in this word, which is 0 at first. */
static uint64_t key_of(pthread_cond_t *cond)
{
	_Atomic uint32_t *word = (_Atomic uint32_t *)cond;
	uint32_t none = 0;

	if (!(cond->__data.__wrefs & COND_SHARED))
		return (uint64_t)cond;
	if (!atomic_load(word))
		atomic_compare_exchange_strong(word, &none, turn_next_shared());
	return (uint64_t)atomic_load(word) << 1 | 1;
}

/* A wait that is cancelled. */
struct cond_wait {
	pthread_mutex_t *mutex;
	struct parked *entry;
	uint64_t key;
};

/* A signal that came meanwhile is another thread's. */
static void end_cancelled(void *argument)
{
	struct cond_wait *wait = argument;

	turn_need(NULL);
	if (turn_leave_wait(wait->entry))
		turn_signal(wait->key, false);
	pthread_mutex_lock(wait->mutex);
}

/* Waits in the table. Returns ETIMEDOUT or 0. */
static int wait_entry(struct cond_wait *wait, const struct limit *limit, const void *caller)
{
	bool is_late;

	pthread_cleanup_push(end_cancelled, wait);
	is_late = turn_wait(wait->entry, limit);
	pthread_cleanup_pop(0);
	turn_need(caller);
	return turn_leave_wait(wait->entry) || !is_late ? 0 : ETIMEDOUT;
}

/* If the table is full, it ends at once, as POSIX allows. */
static int wait_cond(pthread_cond_t *cond, pthread_mutex_t *mutex, const struct limit *limit,
		     const void *caller)
{
	struct cond_wait wait = { .mutex = mutex };
	int error, relocked;

	if (limit && is_bad(limit->time))
		return EINVAL;
	turn_need(caller);
	wait.key = key_of(cond);
	wait.entry = turn_enter_wait(wait.key);
	error = pthread_mutex_unlock(mutex);
	if (error && wait.entry)
		turn_leave_wait(wait.entry);
	if (error)
		return error;
	if (wait.entry)
		error = wait_entry(&wait, limit, caller);
	else
		sched_yield();
	relocked = pthread_mutex_lock(mutex);
	return relocked ? relocked : error;
}

EXPORT int pthread_cond_wait(pthread_cond_t *cond, pthread_mutex_t *mutex)
{
	if (!turn_is_found(CALLER))
		return REAL(pthread_cond_wait)(cond, mutex);
	return wait_cond(cond, mutex, NULL, CALLER);
}

EXPORT int pthread_cond_clockwait(pthread_cond_t *cond, pthread_mutex_t *mutex, clockid_t clock,
				  const struct timespec *time)
{
	if (!turn_is_found(CALLER))
		return REAL(pthread_cond_clockwait)(cond, mutex, clock, time);
	if (clock != CLOCK_REALTIME && clock != CLOCK_MONOTONIC)
		return EINVAL;
	return wait_cond(cond, mutex, &(struct limit){ clock, time }, CALLER);
}

EXPORT int pthread_cond_timedwait(pthread_cond_t *cond, pthread_mutex_t *mutex,
				  const struct timespec *time)
{
	/* glibc keeps the clock of the attributes in this bit */
	clockid_t clock = cond->__data.__wrefs & 2 ? CLOCK_MONOTONIC : CLOCK_REALTIME;

	if (!turn_is_found(CALLER))
		return REAL(pthread_cond_timedwait)(cond, mutex, time);
	return wait_cond(cond, mutex, &(struct limit){ clock, time }, CALLER);
}

static int wake(pthread_cond_t *cond, bool are_all, const void *caller)
{
	turn_need(caller);
	turn_signal(key_of(cond), are_all);
	return 0;
}

EXPORT int pthread_cond_signal(pthread_cond_t *cond)
{
	if (!turn_is_found(CALLER))
		return REAL(pthread_cond_signal)(cond);
	return wake(cond, false, CALLER);
}

EXPORT int pthread_cond_broadcast(pthread_cond_t *cond)
{
	if (!turn_is_found(CALLER))
		return REAL(pthread_cond_broadcast)(cond);
	return wake(cond, true, CALLER);
}

/* glibc's types of C11 are those of POSIX under another name. */

static int c11_result(int error)
{
	return !error ? thrd_success : error == ETIMEDOUT ? thrd_timedout : thrd_error;
}

EXPORT int cnd_wait(cnd_t *cond, mtx_t *mutex)
{
	if (!turn_is_found(CALLER))
		return REAL(cnd_wait)(cond, mutex);
	return c11_result(wait_cond((pthread_cond_t *)cond, (pthread_mutex_t *)mutex,
				    NULL, CALLER));
}

EXPORT int cnd_timedwait(cnd_t *cond, mtx_t *mutex, const struct timespec *time)
{
	if (!turn_is_found(CALLER))
		return REAL(cnd_timedwait)(cond, mutex, time);
	return c11_result(wait_cond((pthread_cond_t *)cond, (pthread_mutex_t *)mutex,
				    &(struct limit){ CLOCK_REALTIME, time }, CALLER));
}

EXPORT int cnd_signal(cnd_t *cond)
{
	if (!turn_is_found(CALLER))
		return REAL(cnd_signal)(cond);
	return wake((pthread_cond_t *)cond, false, CALLER);
}

EXPORT int cnd_broadcast(cnd_t *cond)
{
	if (!turn_is_found(CALLER))
		return REAL(cnd_broadcast)(cond);
	return wake((pthread_cond_t *)cond, true, CALLER);
}
