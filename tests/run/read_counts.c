/* SPDX-License-Identifier: MIT OR Apache-2.0 */
/*
 * read_counts: how many instructions a read of each clock takes, with the call of raise after it.
 * Prints a line for each clock: its number, and the least of some reads. A process traces another
 * one, so the load of the machine doesn't matter.
 */
#define _GNU_SOURCE
#include <signal.h>
#include <stdio.h>
#include <stdlib.h>
#include <sys/ptrace.h>
#include <sys/wait.h>
#include <time.h>
#include <unistd.h>

enum { READS = 10, CLOCKS = 7 };

static const clockid_t clocks[CLOCKS] = {
	CLOCK_REALTIME,	 CLOCK_MONOTONIC,	CLOCK_MONOTONIC_RAW,	CLOCK_BOOTTIME,
	CLOCK_TAI,	 CLOCK_REALTIME_COARSE, CLOCK_MONOTONIC_COARSE,
};

/* Stops before the first read, and after each one. */
static void read_all(void)
{
	struct timespec now;

	if (ptrace(PTRACE_TRACEME, 0, 0, 0))
		_exit(EXIT_FAILURE);
	raise(SIGSTOP);
	for (int i = 0; i < CLOCKS * READS; i++) {
		if (clock_gettime(clocks[i / READS], &now))
			_exit(EXIT_FAILURE);
		raise(SIGSTOP);
	}
	_exit(EXIT_SUCCESS);
}

/* Waits for a stop. Returns whether it is that of a step. */
static int is_step(pid_t reader)
{
	int status;

	if (waitpid(reader, &status, 0) != reader || !WIFSTOPPED(status))
		exit(EXIT_FAILURE);
	return WSTOPSIG(status) != SIGSTOP;
}

static long count_steps(pid_t reader)
{
	long steps = 0;

	do {
		steps++;
		if (ptrace(PTRACE_SINGLESTEP, reader, 0, 0))
			exit(EXIT_FAILURE);
	} while (is_step(reader));
	return steps;
}

int main(void)
{
	pid_t reader = fork();

	if (!reader)
		read_all();
	if (reader < 0 || is_step(reader))
		return EXIT_FAILURE;
	for (int clock = 0; clock < CLOCKS; clock++) {
		long least = count_steps(reader), steps;

		for (int i = 1; i < READS; i++) {
			steps = count_steps(reader);
			least = steps < least ? steps : least;
		}
		printf("%d %ld\n", (int)clocks[clock], least);
	}
	kill(reader, SIGKILL);
	return 0;
}
