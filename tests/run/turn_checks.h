/* turn_checks.h - what turn_locks.c and turn_conds.c have in common. */
#ifndef TURN_CHECKS_H
#define TURN_CHECKS_H

#include <pthread.h>
#include <sys/mman.h>
#include <time.h>

#include "faults.h"

static inline pthread_mutex_t *make_mutex(int kind, int is_shared, int is_robust)
{
	pthread_mutex_t *mutex = mmap(NULL, 4096, PROT_READ | PROT_WRITE,
				      MAP_SHARED | MAP_ANONYMOUS, -1, 0);
	pthread_mutexattr_t attributes;

	pthread_mutexattr_init(&attributes);
	pthread_mutexattr_settype(&attributes, kind);
	pthread_mutexattr_setpshared(&attributes, is_shared);
	pthread_mutexattr_setrobust(&attributes, is_robust);
	pthread_mutex_init(mutex, &attributes);
	return mutex;
}

static inline struct timespec after(clockid_t clock, long nanos)
{
	struct timespec time;

	clock_gettime(clock, &time);
	time.tv_nsec += nanos;
	time.tv_sec += time.tv_nsec / 1000000000;
	time.tv_nsec %= 1000000000;
	return time;
}

static inline void nap(long millis)
{
	struct timespec span = { millis / 1000, millis % 1000 * 1000000 };

	while (nanosleep(&span, &span))
		;
}

static inline long millis(void)
{
	struct timespec now;

	clock_gettime(CLOCK_MONOTONIC, &now);
	return now.tv_sec * 1000 + now.tv_nsec / 1000000;
}

#endif
