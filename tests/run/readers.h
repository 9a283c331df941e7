/* SPDX-License-Identifier: MIT OR Apache-2.0 */
/* readers.h - processes that read the clocks while others set REALTIME and are killed. */
#ifndef READERS_H
#define READERS_H

#include <stdatomic.h>
#include <stdbool.h>
#include <stdio.h>
#include <stdlib.h>
#include <sys/mman.h>
#include <sys/wait.h>
#include <time.h>
#include <unistd.h>

enum { READERS = 3 };

/* the times that are set */
static const time_t TIMES[] = { 1000000000, 2000000000 };

struct shared {
	_Atomic long long last; /* ns of MONOTONIC */
	atomic_bool is_over;
	atomic_long reads, back, errors, sets;
};

static struct shared *shared;

static inline long long read_monotonic(void)
{
	struct timespec now;

	if (clock_gettime(CLOCK_MONOTONIC, &now))
		shared->errors++;
	return now.tv_sec * 1000000000LL + now.tv_nsec;
}

/* REALTIME is at most an hour after one of the times that are set. */
static inline void check_real(void)
{
	struct timespec now;

	if (clock_gettime(CLOCK_REALTIME, &now) || now.tv_sec < TIMES[0] ||
	    now.tv_sec - TIMES[now.tv_sec >= TIMES[1]] > 3600)
		shared->errors++;
}

/* Sets REALTIME to one of the times, and counts it. */
static inline void set_real(int number)
{
	struct timespec time = { TIMES[number % 2], 0 };

	if (clock_settime(CLOCK_REALTIME, &time))
		shared->errors++;
	shared->sets++;
}

/* Looks whether MONOTONIC goes back, also from one reader to another. */
static inline void read_all(void)
{
	while (!shared->is_over) {
		long long last = shared->last, now = read_monotonic();

		if (now < last)
			shared->back++;
		while (now > last &&
		       !atomic_compare_exchange_weak(&shared->last, &last, now))
			;
		check_real();
		shared->reads++;
	}
	_exit(0);
}

static inline pid_t start(void (*run)(void))
{
	pid_t child = fork();

	if (!child)
		run();
	if (child < 0) {
		perror("fork");
		shared->is_over = true;
		exit(EXIT_FAILURE);
	}
	return child;
}

static inline void share(void)
{
	shared = mmap(NULL, sizeof(*shared), PROT_READ | PROT_WRITE,
		      MAP_SHARED | MAP_ANONYMOUS, -1, 0);
	if (shared == MAP_FAILED) {
		perror("mmap");
		exit(EXIT_FAILURE);
	}
}

static inline void start_readers(void)
{
	share();
	for (int i = 0; i < READERS; i++)
		start(read_all);
}

/* Ends the readers, and prints the counts. A reader that ended in another way is
 * an error. Returns the program's status: at least one read must have been made. */
static inline int end_readers(int killed, int readers)
{
	int status, ended = 0;

	shared->is_over = true;
	while (wait(&status) > 0)
		ended += !status;
	shared->errors += readers - ended;
	printf("killed %d, sets %ld, reads %ld, back %ld, errors %ld\n", killed,
	       shared->sets, shared->reads, shared->back, shared->errors);
	return shared->back || shared->errors || !shared->reads;
}

#endif
