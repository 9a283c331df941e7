/* SPDX-License-Identifier: MIT OR Apache-2.0 */
/*
 * Prints REALTIME and MONOTONIC in ns, and again after each of its sleeps.
 *
 *     nodes_clocks [NANOS..]
 */
#define _GNU_SOURCE
#include <stdio.h>
#include <stdlib.h>
#include <time.h>

static const long long NANOS = 1000000000;

static long long nanos_of(clockid_t clock)
{
	struct timespec time;

	clock_gettime(clock, &time);
	return time.tv_sec * NANOS + time.tv_nsec;
}

int main(int count, char **words)
{
	for (int i = 1;; i++) {
		struct timespec span;

		printf("%lld %lld\n", nanos_of(CLOCK_REALTIME), nanos_of(CLOCK_MONOTONIC));
		if (i >= count)
			return EXIT_SUCCESS;
		span = (struct timespec){ atoll(words[i]) / NANOS, atoll(words[i]) % NANOS };
		if (nanosleep(&span, NULL))
			return EXIT_FAILURE;
	}
}
