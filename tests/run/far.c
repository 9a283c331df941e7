/* SPDX-License-Identifier: MIT OR Apache-2.0 */
/*
 * Sets timers to the latest time that there is, as programs do that only want to hear
 * of a step of the clock, and prints what is wrong. No clock reaches it.
 */
#define _GNU_SOURCE
#include "faults.h"

#include <signal.h>
#include <stdint.h>
#include <sys/time.h>
#include <sys/timerfd.h>
#include <time.h>
#include <unistd.h>

static const struct itimerspec NEVER = { .it_value = { INT64_MAX, 999999999 } };
static const clockid_t CLOCKS[] = { CLOCK_REALTIME, CLOCK_MONOTONIC,
				    CLOCK_BOOTTIME };

enum { CLOCKS_COUNT = sizeof(CLOCKS) / sizeof(*CLOCKS), LEAST_LEFT = 1 << 30 };

static int signals;

static void count_signal(int number)
{
	(void)number;
	signals++;
}

static void check_files(const int *files)
{
	struct itimerspec left;
	uint64_t count;

	for (int i = 0; i < CLOCKS_COUNT; i++) {
		CHECK(read(files[i], &count, sizeof(count)) == -1 &&
		      errno == EAGAIN);
		CHECK(!timerfd_gettime(files[i], &left) &&
		      left.it_value.tv_sec > LEAST_LEFT);
	}
}

static void check_wrong_micros(void)
{
	static const long WRONG[] = { -1, 1000000, INT64_C(1) << 61 };

	for (int i = 0; i < 3; i++) {
		struct itimerval spec = { .it_value = { 0, WRONG[i] } };

		CHECK(setitimer(ITIMER_REAL, &spec, NULL) == -1 &&
		      errno == EINVAL);
	}
}

int main(void)
{
	struct sigevent event = { .sigev_notify = SIGEV_SIGNAL,
				  .sigev_signo = SIGUSR1 };
	int files[CLOCKS_COUNT];
	timer_t timer;

	signal(SIGUSR1, count_signal);
	for (int i = 0; i < CLOCKS_COUNT; i++) {
		files[i] = timerfd_create(CLOCKS[i], TFD_NONBLOCK);
		CHECK(!timerfd_settime(files[i], TFD_TIMER_ABSTIME, &NEVER,
				       NULL));
	}
	CHECK(!timer_create(CLOCK_REALTIME, &event, &timer) &&
	      !timer_settime(timer, TIMER_ABSTIME, &NEVER, NULL));
	usleep(300000);
	check_files(files);
	CHECK(!signals);
	check_wrong_micros();
	return faults > 0;
}
