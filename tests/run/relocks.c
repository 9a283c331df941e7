/* SPDX-License-Identifier: MIT OR Apache-2.0 */
/*
 * relocks [SIGNAL]: threads wait for condition variables until second 1. Each is woken before that,
 * and its mutex is locked until second 2. So the time comes while the C library locks the mutex
 * again. Prints for each wait its result, the second of its end, and the result of unlocking the
 * mutex. The program may handle the signal by which tkrun ends waits, so that it interrupts system
 * calls.
 */
#define _GNU_SOURCE
#include "timed.h"

#include <pthread.h>
#include <signal.h>
#include <stdlib.h>
#include <threads.h>
#include <unistd.h>

enum { PAIRS = 3 };

/* A thread that waits, and one that wakes it while it holds the mutex. Each pair makes another call
 * and has another kind of mutex. */
struct pair {
	pthread_mutex_t mutex;
	pthread_cond_t cond;
	int number, result, unlocked;
	long long end;
};

static const char *const NAMES[PAIRS] = { "normal", "robust", "inheriting" };

static void make_mutex(pthread_mutex_t *mutex, int number)
{
	pthread_mutexattr_t attributes;

	pthread_mutexattr_init(&attributes);
	if (number == 1)
		pthread_mutexattr_setrobust(&attributes, PTHREAD_MUTEX_ROBUST);
	if (number == 2)
		pthread_mutexattr_setprotocol(&attributes, PTHREAD_PRIO_INHERIT);
	pthread_mutex_init(mutex, &attributes);
}

static void *wait_cond(void *argument)
{
	struct pair *pair = argument;
	struct timespec time = now(pair->number == 1 ? CLOCK_MONOTONIC : CLOCK_REALTIME);

	time.tv_sec++;
	pthread_mutex_lock(&pair->mutex);
	if (pair->number == 0)
		pair->result = pthread_cond_timedwait(&pair->cond, &pair->mutex, &time);
	else if (pair->number == 1)
		pair->result = pthread_cond_clockwait(&pair->cond, &pair->mutex, CLOCK_MONOTONIC,
						      &time);
	else
		pair->result = cnd_timedwait((cnd_t *)&pair->cond, (mtx_t *)&pair->mutex, &time);
	pair->end = now(CLOCK_MONOTONIC).tv_sec;
	pair->unlocked = pthread_mutex_unlock(&pair->mutex);
	return NULL;
}

/* The other threads wait when this one's sleep ends. */
static void *hold(void *argument)
{
	struct pair *pair = argument;
	struct timespec end = { 2, 0 };

	usleep(1000);
	pthread_mutex_lock(&pair->mutex);
	pthread_cond_signal(&pair->cond);
	clock_nanosleep(CLOCK_MONOTONIC, TIMER_ABSTIME, &end, NULL);
	pthread_mutex_unlock(&pair->mutex);
	return NULL;
}

static void ignore(int number)
{
	(void)number;
}

int main(int count, char **words)
{
	const struct sigaction action = { .sa_handler = ignore };
	static struct pair pairs[PAIRS];
	pthread_t threads[2 * PAIRS];

	if (count > 1)
		sigaction(atoi(words[1]), &action, NULL);
	for (int i = 0; i < PAIRS; i++) {
		make_mutex(&pairs[i].mutex, i);
		pairs[i].number = i;
		pthread_create(&threads[2 * i], NULL, wait_cond, &pairs[i]);
		pthread_create(&threads[2 * i + 1], NULL, hold, &pairs[i]);
	}
	for (int i = 0; i < 2 * PAIRS; i++)
		pthread_join(threads[i], NULL);
	for (int i = 0; i < PAIRS; i++)
		printf("%s %d %lld %d\n", NAMES[i], pairs[i].result, pairs[i].end,
		       pairs[i].unlocked);
	return 0;
}
