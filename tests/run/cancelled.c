/* SPDX-License-Identifier: MIT OR Apache-2.0 */
/*
 * Reads and sets a clock in a thread that is to be cancelled, and prints what is wrong:
 * neither is a cancellation point (pthreads(7)), and neither changes errno. Sleeps, and many reads,
 * leave how a thread may be cancelled.
 */
#define _GNU_SOURCE
#include "faults.h"

#include <pthread.h>
#include <time.h>

enum { READS = 3000 }; /* on a counter of sleeps some of them sleep, too */

static int calls;

static void *read_and_set(void *unused)
{
	struct timespec time = { 1000000000, 0 };

	pthread_cancel(pthread_self());
	errno = ENOTNAM;
	calls += !clock_settime(CLOCK_REALTIME, &time);
	calls += !clock_gettime(CLOCK_MONOTONIC, &time);
	CHECK(errno == ENOTNAM);
	pthread_testcancel();
	calls++;
	return unused;
}

static void check_state(void)
{
	int state, type;

	CHECK(!pthread_setcancelstate(PTHREAD_CANCEL_ENABLE, &state));
	CHECK(state == PTHREAD_CANCEL_ENABLE);
	CHECK(!pthread_setcanceltype(PTHREAD_CANCEL_DEFERRED, &type));
	CHECK(type == PTHREAD_CANCEL_DEFERRED);
}

static void sleep_and_read(void)
{
	struct timespec time = { 0, 1000 };

	CHECK(!nanosleep(&time, NULL));
	check_state();
	for (int i = 0; i < READS; i++)
		CHECK(!clock_gettime(CLOCK_MONOTONIC, &time));
	check_state();
}

int main(void)
{
	pthread_t thread;
	void *result;

	CHECK(!errno);
	sleep_and_read();
	pthread_create(&thread, NULL, read_and_set, NULL);
	pthread_join(thread, &result);
	CHECK(result == PTHREAD_CANCELED && calls == 2);
	return faults > 0;
}
