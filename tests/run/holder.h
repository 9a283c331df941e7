/* SPDX-License-Identifier: MIT OR Apache-2.0 */
/* holder.h - a thread that holds locks, and what waits for them have in common. */
#ifndef HOLDER_H
#define HOLDER_H

#include "spans.h"

#include <linux/futex.h>
#include <pthread.h>
#include <sys/syscall.h>

/* Returns 0 for the error that says that the time has come. */
static inline int at_time(int error)
{
	return error == ETIMEDOUT ? 0 : error ? error : EPROTO;
}

/* What another thread holds. */
static pthread_mutex_t inheriting;
static pthread_rwlock_t rwlock = PTHREAD_RWLOCK_INITIALIZER;
static uint32_t word;

static inline void *hold(void *unused)
{
	pthread_mutex_lock(&inheriting);
	pthread_rwlock_wrlock(&rwlock);
	syscall(SYS_futex, &word, FUTEX_LOCK_PI, 0, NULL, NULL, 0);
	pause();
	return unused;
}

/* Starts a thread that holds all of these. Signals are the main thread's. */
static inline pthread_t start_holder(void)
{
	pthread_mutexattr_t attributes;
	sigset_t all, saved;
	pthread_t thread;

	pthread_mutexattr_init(&attributes);
	pthread_mutexattr_setprotocol(&attributes, PTHREAD_PRIO_INHERIT);
	pthread_mutex_init(&inheriting, &attributes);
	sigfillset(&all);
	pthread_sigmask(SIG_SETMASK, &all, &saved);
	pthread_create(&thread, NULL, hold, NULL);
	pthread_sigmask(SIG_SETMASK, &saved, NULL);
	while (!__atomic_load_n(&word, __ATOMIC_ACQUIRE))
		sched_yield();
	return thread;
}

#endif
