/* SPDX-License-Identifier: MIT OR Apache-2.0 */
/*
 * Waits for locks, condition variables and threads for a span, and prints what
 * spans.c prints. A wait for a condition variable is made by one call.
 */
#define _GNU_SOURCE
#include "holder.h"

#include <semaphore.h>
#include <threads.h>

static int by_sem_timedwait(int64_t span, int64_t *left)
{
	struct timespec time = after(CLOCK_REALTIME, span);
	sem_t semaphore;

	(void)left;
	sem_init(&semaphore, 0, 0);
	return error_of(sem_timedwait(&semaphore, &time), ETIMEDOUT);
}

static int by_sem_clockwait(int64_t span, int64_t *left)
{
	struct timespec time = after(CLOCK_MONOTONIC, span);
	sem_t semaphore;

	(void)left;
	sem_init(&semaphore, 0, 0);
	return error_of(sem_clockwait(&semaphore, CLOCK_MONOTONIC, &time),
			ETIMEDOUT);
}

static pthread_mutex_t mutex = PTHREAD_MUTEX_INITIALIZER;
static pthread_cond_t cond = PTHREAD_COND_INITIALIZER;

static int by_cond_timedwait(int64_t span, int64_t *left)
{
	struct timespec time = after(CLOCK_REALTIME, span);

	(void)left;
	pthread_mutex_lock(&mutex);
	return at_time(pthread_cond_timedwait(&cond, &mutex, &time));
}

static int by_monotonic_cond(int64_t span, int64_t *left)
{
	struct timespec time = after(CLOCK_MONOTONIC, span);
	pthread_condattr_t attributes;
	pthread_cond_t own;

	(void)left;
	pthread_condattr_init(&attributes);
	pthread_condattr_setclock(&attributes, CLOCK_MONOTONIC);
	pthread_cond_init(&own, &attributes);
	pthread_mutex_lock(&mutex);
	return at_time(pthread_cond_timedwait(&own, &mutex, &time));
}

static int by_cond_clockwait(int64_t span, int64_t *left)
{
	struct timespec time = after(CLOCK_MONOTONIC, span);

	(void)left;
	pthread_mutex_lock(&mutex);
	return at_time(pthread_cond_clockwait(&cond, &mutex, CLOCK_MONOTONIC,
					      &time));
}

static int by_cnd_timedwait(int64_t span, int64_t *left)
{
	struct timespec time = after(CLOCK_REALTIME, span);
	mtx_t lock;
	cnd_t own;

	(void)left;
	mtx_init(&lock, mtx_plain);
	cnd_init(&own);
	mtx_lock(&lock);
	return cnd_timedwait(&own, &lock, &time) == thrd_timedout ? 0 : EPROTO;
}

/* The locks are taken already, so each wait for them ends by its time. */
static int by_mutex_timedlock(int64_t span, int64_t *left)
{
	struct timespec time = after(CLOCK_REALTIME, span);

	(void)left;
	pthread_mutex_lock(&mutex);
	return at_time(pthread_mutex_timedlock(&mutex, &time));
}

static int by_mutex_clocklock(int64_t span, int64_t *left)
{
	struct timespec time = after(CLOCK_MONOTONIC, span);

	(void)left;
	pthread_mutex_lock(&mutex);
	return at_time(
		pthread_mutex_clocklock(&mutex, CLOCK_MONOTONIC, &time));
}

static int by_mtx_timedlock(int64_t span, int64_t *left)
{
	struct timespec time = after(CLOCK_REALTIME, span);
	mtx_t taken;

	(void)left;
	mtx_init(&taken, mtx_timed);
	mtx_lock(&taken);
	return mtx_timedlock(&taken, &time) == thrd_timedout ? 0 : EPROTO;
}

static int by_inheriting_mutex(int64_t span, int64_t *left)
{
	struct timespec time;

	(void)left;
	start_holder();
	time = after(CLOCK_REALTIME, span);
	return at_time(pthread_mutex_timedlock(&inheriting, &time));
}

static int wait_rwlock(int64_t span, bool is_read, clockid_t clock)
{
	struct timespec time;

	start_holder();
	time = after(clock, span);
	if (clock == CLOCK_MONOTONIC)
		return at_time(is_read ? pthread_rwlock_clockrdlock(
						 &rwlock, clock, &time)
				       : pthread_rwlock_clockwrlock(
						 &rwlock, clock, &time));
	return at_time(is_read ? pthread_rwlock_timedrdlock(&rwlock, &time)
			       : pthread_rwlock_timedwrlock(&rwlock, &time));
}

static int by_timedrdlock(int64_t span, int64_t *left)
{
	(void)left;
	return wait_rwlock(span, true, CLOCK_REALTIME);
}

static int by_timedwrlock(int64_t span, int64_t *left)
{
	(void)left;
	return wait_rwlock(span, false, CLOCK_REALTIME);
}

static int by_clockrdlock(int64_t span, int64_t *left)
{
	(void)left;
	return wait_rwlock(span, true, CLOCK_MONOTONIC);
}

static int by_clockwrlock(int64_t span, int64_t *left)
{
	(void)left;
	return wait_rwlock(span, false, CLOCK_MONOTONIC);
}

static int by_timedjoin(int64_t span, int64_t *left)
{
	pthread_t thread = start_holder();
	struct timespec time = after(CLOCK_REALTIME, span);

	(void)left;
	return at_time(pthread_timedjoin_np(thread, NULL, &time));
}

static int by_clockjoin(int64_t span, int64_t *left)
{
	pthread_t thread = start_holder();
	struct timespec time = after(CLOCK_MONOTONIC, span);

	(void)left;
	return at_time(pthread_clockjoin_np(thread, NULL, CLOCK_MONOTONIC,
					    &time));
}

static const struct span_wait WAITS[] = {
	{ "sem_timedwait", by_sem_timedwait },
	{ "sem_clockwait", by_sem_clockwait },
	{ "cond_timedwait", by_cond_timedwait },
	{ "monotonic_cond", by_monotonic_cond },
	{ "cond_clockwait", by_cond_clockwait },
	{ "cnd_timedwait", by_cnd_timedwait },
	{ "mutex_timedlock", by_mutex_timedlock },
	{ "mutex_clocklock", by_mutex_clocklock },
	{ "inheriting_mutex", by_inheriting_mutex },
	{ "mtx_timedlock", by_mtx_timedlock },
	{ "timedrdlock", by_timedrdlock },
	{ "timedwrlock", by_timedwrlock },
	{ "clockrdlock", by_clockrdlock },
	{ "clockwrlock", by_clockwrlock },
	{ "timedjoin", by_timedjoin },
	{ "clockjoin", by_clockjoin },
};

int main(int count, char **words)
{
	return make_spans(WAITS, sizeof(WAITS) / sizeof(*WAITS), count, words);
}
