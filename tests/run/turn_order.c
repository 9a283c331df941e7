/* SPDX-License-Identifier: MIT OR Apache-2.0 */
/*
 * turn_order: threads wait for one lock, semaphore or condition variable, with time-outs that don't
 * come, while one thread unlocks or signals it and takes it again. Prints who got it, in order.
 */
#define _GNU_SOURCE
#include <errno.h>
#include <pthread.h>
#include <sched.h>
#include <semaphore.h>
#include <stdio.h>
#include <stdlib.h>
#include <sys/mman.h>
#include <sys/wait.h>
#include <time.h>
#include <unistd.h>

enum { THREADS = 4, ROUNDS = 6, KINDS = 5 };

/* What processes share. */
static struct all {
	pthread_mutex_t mutex;
	pthread_rwlock_t rwlock;
	pthread_cond_t cond;
	sem_t semaphore;
	int waiting;
} *all;

static int kind;
static struct timespec far;

static void show(const char *who, long number)
{
	char line[32];
	int size = snprintf(line, sizeof(line), "%s%ld ", who, number);

	if (write(1, line, (size_t)size) != size)
		exit(1);
}

static int lock(void)
{
	switch (kind) {
	case 0:
		return pthread_mutex_timedlock(&all->mutex, &far);
	case 1:
		return pthread_rwlock_timedwrlock(&all->rwlock, &far);
	case 2:
		return sem_timedwait(&all->semaphore, &far) ? errno : 0;
	default:
		pthread_mutex_lock(&all->mutex);
		all->waiting++;
		return kind == 3 ? pthread_cond_timedwait(&all->cond, &all->mutex, &far)
				 : pthread_cond_wait(&all->cond, &all->mutex);
	}
}

static void unlock(void)
{
	if (kind == 1)
		pthread_rwlock_unlock(&all->rwlock);
	else if (kind == 2)
		sem_post(&all->semaphore);
	else
		pthread_mutex_unlock(&all->mutex);
}

static void *take_often(void *argument)
{
	for (int i = 0; i < ROUNDS; i++) {
		if (lock())
			exit(1);
		show("", (long)argument);
		unlock();
	}
	return NULL;
}

/* Signals one waiting thread of all processes after the other, until all have ended their rounds. */
static void signal_all(int total)
{
	while (total) {
		pthread_mutex_lock(&all->mutex);
		if (all->waiting) {
			all->waiting--;
			total--;
			pthread_cond_signal(&all->cond);
		}
		pthread_mutex_unlock(&all->mutex);
		sched_yield();
	}
}

static void take_and_hold(void)
{
	for (int i = 0; i < ROUNDS; i++) {
		if (lock())
			exit(1);
		show("m", i);
		sched_yield();
		unlock();
	}
}

static void run_threads(long first, int total)
{
	pthread_t threads[THREADS];

	for (long i = 0; i < THREADS; i++)
		pthread_create(&threads[i], NULL, take_often, (void *)(first + i));
	if (total)
		signal_all(total);
	else if (kind < 3)
		take_and_hold();
	for (int i = 0; i < THREADS; i++)
		pthread_join(threads[i], NULL);
}

static void make_all(void)
{
	pthread_mutexattr_t mutex;
	pthread_rwlockattr_t rwlock;
	pthread_condattr_t cond;

	pthread_mutexattr_init(&mutex);
	pthread_rwlockattr_init(&rwlock);
	pthread_condattr_init(&cond);
	pthread_mutexattr_setpshared(&mutex, PTHREAD_PROCESS_SHARED);
	pthread_rwlockattr_setpshared(&rwlock, PTHREAD_PROCESS_SHARED);
	pthread_condattr_setpshared(&cond, PTHREAD_PROCESS_SHARED);
	pthread_mutex_init(&all->mutex, &mutex);
	pthread_rwlock_init(&all->rwlock, &rwlock);
	pthread_cond_init(&all->cond, &cond);
	sem_init(&all->semaphore, 1, 1);
}

int main(void)
{
	pid_t child;

	all = mmap(NULL, sizeof(*all), PROT_READ | PROT_WRITE, MAP_SHARED | MAP_ANONYMOUS, -1, 0);
	clock_gettime(CLOCK_REALTIME, &far);
	far.tv_sec += 1000;
	make_all();
	for (kind = 0; kind < KINDS; kind++) {
		child = fork();
		if (!child) {
			run_threads(THREADS, 0);
			_exit(0);
		}
		run_threads(0, kind < 3 ? 0 : 2 * THREADS * ROUNDS);
		waitpid(child, NULL, 0);
		if (write(1, "\n", 1) != 1)
			return 1;
	}
	return 0;
}
