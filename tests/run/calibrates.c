/* SPDX-License-Identifier: MIT OR Apache-2.0 */
/*
 * calibrates MICROS MOST: as a server does when it starts, measures the TSC by reading
 * gettimeofday until more than MICROS us have passed, MOST times at most. Prints the number of its
 * reads after the first one, and how many us have passed. Without any, it would divide by 0.
 */
#define _GNU_SOURCE
#include <stdint.h>
#include <stdio.h>
#include <stdlib.h>
#include <sys/time.h>
#include <x86intrin.h>

static int64_t micros_now(void)
{
	struct timeval time;

	gettimeofday(&time, NULL);
	return time.tv_sec * INT64_C(1000000) + time.tv_usec;
}

int main(int count, char **words)
{
	int64_t start, now, micros, reads = 0, most;
	uint64_t cycles;

	if (count != 3)
		return EXIT_FAILURE;
	micros = atoll(words[1]);
	most = atoll(words[2]);
	cycles = __rdtsc();
	start = now = micros_now();
	while (now - start <= micros && reads < most) {
		now = micros_now();
		reads++;
	}
	cycles = (__rdtsc() - cycles) / (uint64_t)(now - start);
	printf("%lld %lld\n", (long long)reads, (long long)(now - start));
	return cycles ? EXIT_SUCCESS : EXIT_FAILURE;
}
