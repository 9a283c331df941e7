/* SPDX-License-Identifier: MIT OR Apache-2.0 */
/*
 * Computes in processes whose parents end at once, while another process sleeps again and again.
 *
 *     orphans COUNT [subreaper]
 *
 * Prints for how many of COUNT such processes the clock has moved while they computed. Each of them
 * becomes a child of tkrun, or of this program. tkrun must find it before it moves a counter of
 * sleeps.
 */
#define _GNU_SOURCE
#include <signal.h>
#include <stdio.h>
#include <stdlib.h>
#include <sys/prctl.h>
#include <sys/wait.h>
#include <time.h>
#include <unistd.h>

enum { TURNS = 1000000 };

static long long monotonic(void)
{
	struct timespec now;

	clock_gettime(CLOCK_MONOTONIC, &now);
	return now.tv_sec * 1000000000LL + now.tv_nsec;
}

static void compute(int file)
{
	long long start = monotonic(), moved;

	for (volatile int i = 0; i < TURNS; i++)
		;
	moved = monotonic() - start;
	_exit(write(file, &moved, sizeof(moved)) != sizeof(moved));
}

static void sleep_always(void)
{
	const struct timespec span = { 0, 1000 };

	for (;;)
		nanosleep(&span, NULL);
}

int main(int count, char **words)
{
	long moves = 0;
	long long moved;
	int ends[2];
	pid_t sleeper;

	if (count < 2 || pipe(ends))
		return EXIT_FAILURE;
	if (count > 2 && prctl(PR_SET_CHILD_SUBREAPER, 1, 0, 0, 0))
		return EXIT_FAILURE;
	signal(SIGCHLD, SIG_IGN); /* so this process doesn't run when a child ends */
	sleeper = fork();
	if (!sleeper)
		sleep_always();
	for (long i = 0; i < atol(words[1]); i++) {
		if (!fork()) {
			if (!fork())
				compute(ends[1]);
			_exit(EXIT_SUCCESS);
		}
		if (read(*ends, &moved, sizeof(moved)) != sizeof(moved))
			return EXIT_FAILURE;
		moves += moved != 0;
	}
	kill(sleeper, SIGKILL);
	printf("%ld\n", moves);
	return EXIT_SUCCESS;
}
