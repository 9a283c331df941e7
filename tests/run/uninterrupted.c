/* SPDX-License-Identifier: MIT OR Apache-2.0 */
/*
 * Reads the clocks while a signal comes every millisecond, and prints how many reads failed: no signal
 * interrupts one. The handler lets no call go on.
 */
#define _GNU_SOURCE
#include <signal.h>
#include <stdbool.h>
#include <stdio.h>
#include <sys/time.h>
#include <time.h>

enum { READS = 20000, SIGNALS = 100, PERIOD_MICROS = 1000 };

static volatile sig_atomic_t signals;

static void note(int number)
{
	(void)number;
	signals++;
}

/* Returns whether a read by a function fails, or gives no time. */
static bool fails(int function)
{
	struct timespec now = { 0 };
	struct timeval micros = { 0 };

	switch (function % 4) {
	case 0:
		return clock_gettime(CLOCK_REALTIME, &now) || !now.tv_sec;
	case 1:
		return clock_gettime(CLOCK_MONOTONIC, &now);
	case 2:
		return gettimeofday(&micros, NULL) || !micros.tv_sec;
	default:
		return time(NULL) <= 0;
	}
}

int main(void)
{
	struct itimerval timer = { { 0, PERIOD_MICROS }, { 0, PERIOD_MICROS } };
	struct sigaction action = { .sa_handler = note };
	int failed = 0;

	sigaction(SIGALRM, &action, NULL);
	setitimer(ITIMER_REAL, &timer, NULL);
	for (int i = 0; i < READS || signals < SIGNALS; i++)
		failed += fails(i);
	printf("failed %d\n", failed);
	return 0;
}
