/* SPDX-License-Identifier: MIT OR Apache-2.0 */
/*
 * Kills processes that set the clocks, while others read.
 *
 *     killed ROUNDS
 *
 * In each round, two writers set REALTIME as fast as they can, and are killed
 * after 0.1 to 1 ms. Three readers look whether MONOTONIC goes back, also from
 * one reader to another. Prints the counts, and ends with status 1 if a time
 * went back, a call failed, or REALTIME is none of the two that were set.
 */
#define _GNU_SOURCE
#include "readers.h"

#include <signal.h>

/* a writer makes at most SETS_MOST, so that the record fits one script */
enum { WRITERS = 2, SETS_MOST = 2000 };

static void set_all(void)
{
	for (int i = 0; i < SETS_MOST; i++)
		set_real(i);
	for (;;)
		pause();
}

static void kill_writers(unsigned int *seed)
{
	struct timespec span = { 0, 100000 + rand_r(seed) % 900000 };
	pid_t writers[WRITERS];

	for (int i = 0; i < WRITERS; i++)
		writers[i] = start(set_all);
	nanosleep(&span, NULL);
	for (int i = 0; i < WRITERS; i++) {
		kill(writers[i], SIGKILL);
		waitpid(writers[i], NULL, 0);
	}
}

int main(int count, char **words)
{
	int rounds = count > 1 ? atoi(words[1]) : 25;
	unsigned int seed = 1;

	start_readers();
	for (int i = 0; i < rounds; i++)
		kill_writers(&seed);
	return end_readers(rounds * WRITERS, READERS);
}
