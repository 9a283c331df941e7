/* SPDX-License-Identifier: MIT OR Apache-2.0 */
/*
 * Waits for 20 ms in a loop, and prints how often it has looked at the clock, and by how
 * many ns it was late. Another thread waits for an hour.
 *
 *     loops reads      it only looks
 *     loops polls      with a poll for no time
 *     loops selects    with a select for less than a microsecond, which is none
 *     loops sleeps     with a sleep for no time
 *     loops rest       with a wait for what is left, while it isn't past the time, as
 *                      Condvar::wait_timeout_while of Rust does
 */
#define _GNU_SOURCE
#include "spans.h"

#include <poll.h>
#include <pthread.h>
#include <sys/select.h>

enum { SPAN_NANOS = 20000000 };

static void *sleep_long(void *unused)
{
	sleep(3600);
	return unused;
}

static void wait_rest(int64_t left)
{
	static pthread_mutex_t mutex = PTHREAD_MUTEX_INITIALIZER;
	static pthread_cond_t cond = PTHREAD_COND_INITIALIZER;
	struct timespec time = after(CLOCK_MONOTONIC, left);

	pthread_mutex_lock(&mutex);
	pthread_cond_clockwait(&cond, &mutex, CLOCK_MONOTONIC, &time);
	pthread_mutex_unlock(&mutex);
}

static void wait_in(const char *kind, int64_t left)
{
	struct timeval micros = { 0, 0 };
	struct timespec none = { 0, 0 };

	if (!strcmp(kind, "polls"))
		poll(NULL, 0, 0);
	else if (!strcmp(kind, "selects"))
		select(0, NULL, NULL, NULL, &micros);
	else if (!strcmp(kind, "sleeps"))
		nanosleep(&none, NULL);
	else if (!strcmp(kind, "rest"))
		wait_rest(left);
}

int main(int count, char **words)
{
	bool is_past_needed = count > 1 && !strcmp(words[1], "rest");
	int64_t start = nanos(now(CLOCK_MONOTONIC)), left = SPAN_NANOS;
	pthread_t thread;
	long loops = 0;

	pthread_create(&thread, NULL, sleep_long, NULL);
	while (left > 0 || (is_past_needed && !left)) {
		wait_in(words[1], left);
		left = start + SPAN_NANOS - nanos(now(CLOCK_MONOTONIC));
		loops++;
	}
	printf("loops %ld, late %lld\n", loops, (long long)-left);
	return 0;
}
