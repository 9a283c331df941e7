/* SPDX-License-Identifier: MIT OR Apache-2.0 */
/*
 * Asks for what is left of an alarm of 1 us after 999 ns, on a counter of sleeps of 1 GHz. It isn't
 * 0, since that would mean that none is set. Then reads a timer whose file has the number of one
 * that was closed: what is left of the first one neither expires nor gives the second one its
 * clock. And what is left of 30 s is 30 s. Prints what is wrong.
 */
#define _GNU_SOURCE
#include "faults.h"

#include <signal.h>
#include <stdint.h>
#include <sys/time.h>
#include <sys/timerfd.h>
#include <time.h>
#include <unistd.h>

static int64_t seconds(clockid_t clock)
{
	struct timespec now;

	clock_gettime(clock, &now);
	return now.tv_sec;
}

/* Sets a timer for some seconds after the present one. */
static int start_timer(clockid_t clock, time_t span)
{
	struct itimerspec spec = { .it_value = { seconds(clock) + span, 0 } };
	int file = timerfd_create(clock, 0);

	CHECK(!timerfd_settime(file, TFD_TIMER_ABSTIME, &spec, NULL));
	return file;
}

static void check_closed(void)
{
	int64_t started = seconds(CLOCK_REALTIME);
	int file = start_timer(CLOCK_MONOTONIC, 10);
	uint64_t count = 0;

	signal(SIGALRM, SIG_DFL);
	alarm(100); /* if the timer never expires, this ends the program */
	close(file);
	CHECK(start_timer(CLOCK_REALTIME, 30) == file);
	CHECK(read(file, &count, sizeof(count)) == sizeof(count) && count == 1);
	CHECK(seconds(CLOCK_REALTIME) == started + 30);
	alarm(0);
	close(file);
}

/* What is left of whole seconds has no ns. */
static void check_whole(void)
{
	struct itimerspec spec = { .it_value = { 30, 0 } }, rest;
	int file = timerfd_create(CLOCK_MONOTONIC, 0);

	CHECK(!timerfd_settime(file, 0, &spec, NULL) && !timerfd_gettime(file, &rest));
	CHECK(rest.it_value.tv_sec == 30 && !rest.it_value.tv_nsec);
	close(file);
}

static void check_alarm(void)
{
	struct itimerval alarm = { .it_value = { 0, 1 } }, none = { 0 }, rest;
	struct timespec span = { 0, 998 }; /* a wait ends a cycle after its time */

	signal(SIGALRM, SIG_IGN);
	CHECK(!setitimer(ITIMER_REAL, &alarm, NULL));
	CHECK(!nanosleep(&span, NULL));
	CHECK(!getitimer(ITIMER_REAL, &rest));
	CHECK(!rest.it_value.tv_sec && rest.it_value.tv_usec == 1);
	CHECK(!setitimer(ITIMER_REAL, &none, NULL));
}

int main(void)
{
	check_alarm();
	check_whole();
	check_closed();
	return faults > 0;
}
