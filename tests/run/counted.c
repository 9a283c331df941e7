/* SPDX-License-Identifier: MIT OR Apache-2.0 */
/*
 * Reads the clocks, and prints the second of REALTIME of each read.
 *
 *     counted CALL READS            one of CALLS, or "all": each of them in turn
 *     counted threads READS BEFORE  in four threads, until all have read READS times: prints how
 *                                   many of the seconds were at most BEFORE
 */
#define _GNU_SOURCE
#include <pthread.h>
#include <stdatomic.h>
#include <stdio.h>
#include <stdlib.h>
#include <string.h>
#include <sys/time.h>
#include <sys/timeb.h>
#include <time.h>

enum { THREADS = 4 };

static long long by_gettime(void)
{
	struct timespec now;

	return clock_gettime(CLOCK_REALTIME, &now) ? -1 : now.tv_sec;
}

static long long by_coarse(void)
{
	struct timespec now;

	return clock_gettime(CLOCK_REALTIME_COARSE, &now) ? -1 : now.tv_sec;
}

static long long by_timeofday(void)
{
	struct timeval now;

	return gettimeofday(&now, NULL) ? -1 : now.tv_sec;
}

static long long by_time(void)
{
	return time(NULL);
}

static long long by_timespec(void)
{
	struct timespec now;

	return timespec_get(&now, TIME_UTC) == TIME_UTC ? now.tv_sec : -1;
}

static long long by_ftime(void)
{
	struct timeb now;

	return ftime(&now) ? -1 : now.time;
}

static const struct {
	const char *name;
	long long (*read)(void);
} CALLS[] = {
	{ "gettime", by_gettime }, { "coarse", by_coarse },	  { "timeofday", by_timeofday },
	{ "time", by_time },	   { "timespec", by_timespec }, { "ftime", by_ftime },
};

static atomic_long left, before;
static long long last_before;

static void *read_in_thread(void *unused)
{
	while (atomic_fetch_sub(&left, 1) > 0) {
		if (by_gettime() <= last_before)
			atomic_fetch_add(&before, 1);
	}
	return unused;
}

static int read_in_threads(char **words)
{
	pthread_t threads[THREADS];

	left = atol(words[2]);
	last_before = atoll(words[3]);
	for (int i = 0; i < THREADS; i++)
		pthread_create(&threads[i], NULL, read_in_thread, NULL);
	for (int i = 0; i < THREADS; i++)
		pthread_join(threads[i], NULL);
	printf("%ld\n", before);
	return EXIT_SUCCESS;
}

int main(int count, char **words)
{
	const size_t calls = sizeof(CALLS) / sizeof(*CALLS);

	if (count == 4)
		return read_in_threads(words);
	if (count != 3)
		return EXIT_FAILURE;
	for (int i = 0; i < atoi(words[2]); i++) {
		for (size_t j = 0; j < calls; j++) {
			if (!strcmp(words[1], "all") || !strcmp(words[1], CALLS[j].name))
				printf("%lld ", CALLS[j].read());
		}
	}
	puts("");
	return EXIT_SUCCESS;
}
