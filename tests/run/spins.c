/* SPDX-License-Identifier: MIT OR Apache-2.0 */
/*
 * Waits by reading a clock in a loop. Prints the number of its reads after the first one, and the
 * ns from that to the last one. It fails if the clock goes back.
 *
 *     spins CLOCK NANOS                until NANOS ns have passed
 *     spins CLOCK NANOS SLEEP TIMES    or until another thread has slept TIMES times for SLEEP ns
 *                                      of MONOTONIC
 */
#define _GNU_SOURCE
#include <pthread.h>
#include <stdatomic.h>
#include <stdbool.h>
#include <stdio.h>
#include <stdlib.h>
#include <time.h>

static const long long NANOS = 1000000000;

static atomic_bool has_slept;

static long long nanos_of(clockid_t clock)
{
	struct timespec time;

	clock_gettime(clock, &time);
	return time.tv_sec * NANOS + time.tv_nsec;
}

static void *sleep_often(void *argument)
{
	char **words = argument;
	long long nanos = atoll(words[0]);
	struct timespec span = { nanos / NANOS, nanos % NANOS };

	for (int i = atoi(words[1]); i > 0; i--)
		nanosleep(&span, NULL);
	atomic_store(&has_slept, true);
	return NULL;
}

int main(int count, char **words)
{
	clockid_t clock = atoi(words[1]);
	long long most = atoll(words[2]), reads = 0, start, now, last;
	pthread_t thread;

	if (count > 4 && pthread_create(&thread, NULL, sleep_often, words + 3))
		return EXIT_FAILURE;
	start = now = nanos_of(clock);
	while (now - start < most && !atomic_load(&has_slept)) {
		last = now;
		now = nanos_of(clock);
		if (now < last)
			return EXIT_FAILURE;
		reads++;
	}
	if (count > 4)
		pthread_join(thread, NULL);
	printf("%lld %lld\n", reads, now - start);
	return EXIT_SUCCESS;
}
