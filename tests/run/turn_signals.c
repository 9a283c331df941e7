/* SPDX-License-Identifier: MIT OR Apache-2.0 */
/*
 * turn_signals: a signal of a condition variable wakes a thread that still waits for it: not one
 * that is cancelled, one of another process that has a variable at the same address, or one that
 * was there before this process executed its program. Prints the line of each that is wrong. Ends
 * with their number.
 */
#define _GNU_SOURCE
#include <errno.h>
#include <pthread.h>
#include <stdbool.h>
#include <stdlib.h>
#include <string.h>
#include <sys/wait.h>
#include <unistd.h>

#include "turn_checks.h"

enum { ROUNDS = 12 };

static pthread_mutex_t mutex = PTHREAD_MUTEX_INITIALIZER;
static pthread_cond_t cond = PTHREAD_COND_INITIALIZER;

static void unlock(void *lock)
{
	pthread_mutex_unlock(lock);
}

/* Waits for a signal, up to 50 ms. Returns the error. */
static void *wait_cond(void *unused)
{
	struct timespec time = after(CLOCK_REALTIME, 50000000);
	long error = 0;

	(void)unused;
	pthread_mutex_lock(&mutex);
	pthread_cleanup_push(unlock, &mutex);
	error = pthread_cond_timedwait(&cond, &mutex, &time);
	pthread_cleanup_pop(1);
	return (void *)error;
}

/* The first thread that waits is cancelled, and may be signalled before it has gone. */
static void check_cancelled(void)
{
	pthread_t first, second;
	void *value;

	for (int i = 0; i < ROUNDS; i++) {
		pthread_create(&first, NULL, wait_cond, NULL);
		nap(1);
		pthread_create(&second, NULL, wait_cond, NULL);
		nap(1);
		pthread_cancel(first);
		pthread_cond_signal(&cond);
		CHECK(!pthread_join(first, &value) && value == PTHREAD_CANCELED);
		CHECK(!pthread_join(second, &value) && !value);
	}
}

/* Signals a thread of this process. Returns whether it is woken. */
static bool wakes_own(void)
{
	pthread_t thread;
	void *value;

	pthread_create(&thread, NULL, wait_cond, NULL);
	nap(1);
	pthread_cond_signal(&cond);
	pthread_join(thread, &value);
	return !value;
}

static void check_processes(void)
{
	pid_t child = fork();
	int status = 1;

	if (!child)
		_exit(wait_cond(NULL) != (void *)ETIMEDOUT);
	nap(1);
	CHECK(wakes_own());
	CHECK(waitpid(child, &status, 0) == child && !status);
}

static void *execute(void *path)
{
	nap(1);
	execl(path, path, "again", NULL);
	return NULL;
}

/* The child's first thread waits when another one executes the program. */
static void check_program(const char *path)
{
	pid_t child = fork();
	pthread_t thread;
	int status = 1;

	if (!child) {
		pthread_create(&thread, NULL, execute, (void *)path);
		pthread_mutex_lock(&mutex);
		pthread_cond_wait(&cond, &mutex);
		_exit(1);
	}
	CHECK(waitpid(child, &status, 0) == child && !status);
}

int main(int count, char **words)
{
	if (count > 1)
		return !wakes_own();
	check_cancelled();
	check_processes();
	check_program(words[0]);
	return faults;
}
