/* SPDX-License-Identifier: MIT OR Apache-2.0 */
/* Makes each wait of the C library that libtkrun.so answers for a lock, a condition or a thread. */
#define _GNU_SOURCE
#include "timed.h"

#include <errno.h>
#include <pthread.h>
#include <semaphore.h>
#include <threads.h>
#include <unistd.h>

static bool by_sem_timedwait(void)
{
	struct timespec time = until(CLOCK_REALTIME);
	sem_t semaphore;

	sem_init(&semaphore, 0, 0);
	return sem_timedwait(&semaphore, &time) && errno == ETIMEDOUT;
}

static bool by_sem_clockwait(void)
{
	struct timespec time = until(CLOCK_MONOTONIC);
	sem_t semaphore;

	sem_init(&semaphore, 0, 0);
	return sem_clockwait(&semaphore, CLOCK_MONOTONIC, &time) &&
	       errno == ETIMEDOUT;
}

static pthread_mutex_t mutex = PTHREAD_MUTEX_INITIALIZER;
static pthread_cond_t cond = PTHREAD_COND_INITIALIZER;

/* A wait may end early, as if it was woken. */
static bool by_cond_timedwait(void)
{
	struct timespec time = until(CLOCK_REALTIME);
	int error = 0;

	pthread_mutex_lock(&mutex);
	while (!error)
		error = pthread_cond_timedwait(&cond, &mutex, &time);
	pthread_mutex_unlock(&mutex);
	return error == ETIMEDOUT;
}

static bool by_monotonic_cond(void)
{
	struct timespec time = until(CLOCK_MONOTONIC);
	pthread_condattr_t attributes;
	pthread_cond_t own;
	int error = 0;

	pthread_condattr_init(&attributes);
	pthread_condattr_setclock(&attributes, CLOCK_MONOTONIC);
	pthread_cond_init(&own, &attributes);
	pthread_mutex_lock(&mutex);
	while (!error)
		error = pthread_cond_timedwait(&own, &mutex, &time);
	pthread_mutex_unlock(&mutex);
	return error == ETIMEDOUT;
}

static bool by_cond_clockwait(void)
{
	struct timespec time = until(CLOCK_MONOTONIC);
	int error = 0;

	pthread_mutex_lock(&mutex);
	while (!error)
		error = pthread_cond_clockwait(&cond, &mutex, CLOCK_MONOTONIC,
					       &time);
	pthread_mutex_unlock(&mutex);
	return error == ETIMEDOUT;
}

/* The locks are taken already, so each wait for them ends by its time. */
static bool by_mutex_timedlock(void)
{
	struct timespec time = until(CLOCK_REALTIME);
	pthread_mutex_t taken = PTHREAD_MUTEX_INITIALIZER;

	pthread_mutex_lock(&taken);
	return pthread_mutex_timedlock(&taken, &time) == ETIMEDOUT;
}

static bool by_mutex_clocklock(void)
{
	struct timespec time = until(CLOCK_MONOTONIC);
	pthread_mutex_t taken = PTHREAD_MUTEX_INITIALIZER;

	pthread_mutex_lock(&taken);
	return pthread_mutex_clocklock(&taken, CLOCK_MONOTONIC, &time) ==
	       ETIMEDOUT;
}

static bool by_cnd_timedwait(void)
{
	struct timespec time = until(CLOCK_REALTIME);
	int result = thrd_success;
	mtx_t lock;
	cnd_t own;

	mtx_init(&lock, mtx_plain);
	cnd_init(&own);
	mtx_lock(&lock);
	while (result == thrd_success)
		result = cnd_timedwait(&own, &lock, &time);
	return result == thrd_timedout;
}

static bool by_mtx_timedlock(void)
{
	struct timespec time = until(CLOCK_REALTIME);
	mtx_t taken;

	mtx_init(&taken, mtx_timed);
	mtx_lock(&taken);
	return mtx_timedlock(&taken, &time) == thrd_timedout;
}

static pthread_rwlock_t rwlock = PTHREAD_RWLOCK_INITIALIZER;

static void *take_rwlock(void *unused)
{
	pthread_rwlock_wrlock(&rwlock);
	return unused;
}

static bool wait_rwlock(bool is_read, bool is_monotonic)
{
	clockid_t clock = is_monotonic ? CLOCK_MONOTONIC : CLOCK_REALTIME;
	struct timespec time;
	pthread_t thread;

	rwlock = (pthread_rwlock_t)PTHREAD_RWLOCK_INITIALIZER;
	pthread_create(&thread, NULL, take_rwlock, NULL);
	pthread_join(thread, NULL);
	time = until(clock);
	if (is_monotonic)
		return (is_read ? pthread_rwlock_clockrdlock(&rwlock, clock,
							     &time)
				: pthread_rwlock_clockwrlock(
					  &rwlock, clock, &time)) == ETIMEDOUT;
	return (is_read ? pthread_rwlock_timedrdlock(&rwlock, &time)
			: pthread_rwlock_timedwrlock(&rwlock, &time)) ==
	       ETIMEDOUT;
}

static bool by_timedrdlock(void)
{
	return wait_rwlock(true, false);
}

static bool by_timedwrlock(void)
{
	return wait_rwlock(false, false);
}

static bool by_clockrdlock(void)
{
	return wait_rwlock(true, true);
}

static bool by_clockwrlock(void)
{
	return wait_rwlock(false, true);
}

static void *wait_long(void *unused)
{
	pause();
	return unused;
}

static bool by_timedjoin(void)
{
	struct timespec time = until(CLOCK_REALTIME);
	pthread_t thread;

	pthread_create(&thread, NULL, wait_long, NULL);
	return pthread_timedjoin_np(thread, NULL, &time) == ETIMEDOUT;
}

static bool by_clockjoin(void)
{
	struct timespec time = until(CLOCK_MONOTONIC);
	pthread_t thread;

	pthread_create(&thread, NULL, wait_long, NULL);
	return pthread_clockjoin_np(thread, NULL, CLOCK_MONOTONIC, &time) ==
	       ETIMEDOUT;
}

static const struct timed_wait WAITS[] = {
	{ "sem_timedwait", by_sem_timedwait },
	{ "sem_clockwait", by_sem_clockwait },
	{ "cond_timedwait", by_cond_timedwait },
	{ "monotonic_cond", by_monotonic_cond },
	{ "cond_clockwait", by_cond_clockwait },
	{ "mutex_timedlock", by_mutex_timedlock },
	{ "mutex_clocklock", by_mutex_clocklock },
	{ "cnd_timedwait", by_cnd_timedwait },
	{ "mtx_timedlock", by_mtx_timedlock },
	{ "timedrdlock", by_timedrdlock },
	{ "timedwrlock", by_timedwrlock },
	{ "clockrdlock", by_clockrdlock },
	{ "clockwrlock", by_clockwrlock },
	{ "timedjoin", by_timedjoin },
	{ "clockjoin", by_clockjoin },
};

int main(int count, char **words)
{
	make_waits(WAITS, sizeof(WAITS) / sizeof(*WAITS),
		   count > 1 ? words[1] : NULL);
	return 0;
}
