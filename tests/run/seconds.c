/* SPDX-License-Identifier: MIT OR Apache-2.0 */
/*
 * Reads REALTIME without a pause while a second begins, and prints what is wrong.
 *
 *     seconds insert     a second is inserted: REALTIME goes back once, by a second, from before midnight
 *     seconds delete     a second is deleted: REALTIME is at no time in it
 *     seconds offset     an offset changes the rate at three seconds, and no time goes back
 */
#define _GNU_SOURCE
#include <stdbool.h>
#include <stdio.h>
#include <string.h>
#include <sys/timex.h>
#include <time.h>

static const long MIDNIGHT = 1483228800, SECOND = 1000000000;

static long read_clock(clockid_t clock)
{
	struct timespec time = { 0, 0 };

	clock_gettime(clock, &time);
	return time.tv_sec * SECOND + time.tv_nsec;
}

static long now(void)
{
	return read_clock(CLOCK_REALTIME);
}

static void sleep_until(long time)
{
	const struct timespec until = { time / SECOND, time % SECOND };

	clock_nanosleep(CLOCK_REALTIME, TIMER_ABSTIME, &until, NULL);
}

/* Sets REALTIME so that two more seconds begin before midnight: the discipline learns of the leap in
 * the first. */
static bool request_leap(int status)
{
	struct timespec time = { MIDNIGHT - 3, 800000000 };
	struct timex tx = { .modes = ADJ_STATUS, .status = STA_PLL | status };

	return !clock_settime(CLOCK_REALTIME, &time) && adjtimex(&tx) >= 0;
}

/* Reads for a span of MONOTONIC. Returns how often REALTIME went back by about a second, with the time
 * from which it did, and -1 if it went back otherwise. */
static int count_back(long span, long *from)
{
	long end = read_clock(CLOCK_MONOTONIC) + span, last = now(), time;
	int back = 0;

	for (; read_clock(CLOCK_MONOTONIC) < end; last = time) {
		time = now();
		if (time >= last)
			continue;
		if (time < last - SECOND || time > last - SECOND / 2)
			return -1;
		*from = last;
		back++;
	}
	return back;
}

static bool insert(void)
{
	const long midnight = MIDNIGHT * SECOND;
	long from = 0, before, after;
	int back;

	if (!request_leap(STA_INS))
		return false;
	before = now() - read_clock(CLOCK_MONOTONIC);
	sleep_until(midnight - SECOND / 500);
	back = count_back(SECOND / 50, &from);
	sleep_until(midnight);
	after = now() - read_clock(CLOCK_MONOTONIC);
	/* of two clocks that are read one after the other */
	return (back == 0 || back == 1) && from < midnight && before - after > SECOND / 2;
}

static bool remove_second(void)
{
	const long midnight = MIDNIGHT * SECOND;
	long time;

	if (!request_leap(STA_DEL))
		return false;
	sleep_until(midnight - SECOND - SECOND / 500);
	while ((time = now()) < midnight)
		if (time >= midnight - SECOND)
			return false;
	return true;
}

/* The check of the record finds values by the former rate. */
static bool change_rate(void)
{
	struct timex tx = { .modes = ADJ_STATUS | ADJ_OFFSET | ADJ_NANO,
			    .status = STA_PLL | STA_NANO,
			    .offset = SECOND / 2 };
	long from;

	if (adjtimex(&tx) < 0)
		return false;
	for (int i = 0; i < 3; i++) {
		long second = (now() / SECOND + 1) * SECOND;

		sleep_until(second - SECOND / 1000);
		if (count_back(SECOND / 80, &from))
			return false;
	}
	return true;
}

int main(int count, char **words)
{
	const char *what = count > 1 ? words[1] : "";
	bool is_well = !strcmp(what, "insert")	 ? insert()
		       : !strcmp(what, "delete") ? remove_second()
						 : change_rate();

	if (!is_well)
		printf("%s is wrong\n", what);
	return !is_well;
}
