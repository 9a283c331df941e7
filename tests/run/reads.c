/* SPDX-License-Identifier: MIT OR Apache-2.0 */
/*
 * Makes each call that reads or sets a clock, and prints what is wrong.
 * The clocks have started at 2001-09-09, 1000000000. With the argument "deny",
 * each call that sets them must fail with EPERM.
 */
#define _GNU_SOURCE
#include "faults.h"

#include <dlfcn.h>
#include <limits.h>
#include <stdbool.h>
#include <stdio.h>
#include <string.h>
#include <sys/syscall.h>
#include <sys/time.h>
#include <sys/timeb.h>
#include <time.h>
#include <unistd.h>

static const time_t START = 1000000000, SET = 2147483640;
/* Returns whether a time is at most 100 s after the one that was set. */
static bool is_after(time_t time, time_t set)
{
	return time >= set && time < set + 100;
}

/* All calls give the time that was set. */
static void check_reads(time_t set)
{
	struct timespec now;
	struct timeval micros;
	struct timezone zone;
	struct timeb old;
	time_t second;

	CHECK(!clock_gettime(CLOCK_REALTIME, &now) &&
	      is_after(now.tv_sec, set));
	CHECK(!clock_gettime(CLOCK_REALTIME_COARSE, &now) &&
	      is_after(now.tv_sec, set));
	CHECK(!clock_gettime(CLOCK_TAI, &now) && is_after(now.tv_sec, set));
	CHECK(!clock_gettime(8, &now) && is_after(now.tv_sec, set));
	CHECK(!gettimeofday(&micros, &zone) && is_after(micros.tv_sec, set));
	CHECK(is_after(time(NULL), set));
	CHECK(is_after(time(&second), set) && is_after(second, set));
	CHECK(timespec_get(&now, TIME_UTC) == TIME_UTC &&
	      is_after(now.tv_sec, set));
	CHECK(!timespec_get(&now, 77));
	CHECK(!ftime(&old) && is_after(old.time, set));
	CHECK(!syscall(SYS_clock_gettime, CLOCK_REALTIME, &now) &&
	      is_after(now.tv_sec, set));
	CHECK(!syscall(SYS_gettimeofday, &micros, NULL) &&
	      is_after(micros.tv_sec, set));
	CHECK(is_after(syscall(SYS_time, NULL), set));
}

/* The clocks of MONOTONIC started at 0, and setting REALTIME leaves them. */
static void check_monotonic(void)
{
	static const clockid_t CLOCKS[] = { CLOCK_MONOTONIC,
					    CLOCK_MONOTONIC_RAW,
					    CLOCK_MONOTONIC_COARSE,
					    CLOCK_BOOTTIME, 9 };
	struct timespec time;

	for (size_t i = 0; i < sizeof(CLOCKS) / sizeof(*CLOCKS); i++)
		CHECK(!clock_gettime(CLOCKS[i], &time) &&
		      is_after(time.tv_sec, 0));
	CHECK(!clock_getres(CLOCK_MONOTONIC, &time) && time.tv_nsec == 1);
	CHECK(!clock_getres(CLOCK_MONOTONIC_COARSE, &time) && time.tv_nsec > 1);
	CHECK(!clock_gettime(CLOCK_PROCESS_CPUTIME_ID, &time));
	CHECK(!syscall(SYS_clock_getres, CLOCK_REALTIME, &time) &&
	      !time.tv_sec && time.tv_nsec == 1);
	CHECK(clock_gettime(77, &time) && errno == EINVAL);
	CHECK(syscall(SYS_clock_gettime, 77, &time) == -1 && errno == EINVAL);
}

/* A static program has no stime. */
static int set_old_time(const time_t *when)
{
	int (*stime)(const time_t *) =
		(int (*)(const time_t *))dlsym(RTLD_DEFAULT, "stime");
	struct timespec time = { *when, 0 };

	return stime ? stime(when) : clock_settime(CLOCK_REALTIME, &time);
}

static void check_sets(void)
{
	struct timespec time = { SET, 5 };
	struct timeval micros = { SET + 200, 0 };
	struct timezone zone = { 60, 0 }, got;
	time_t second = SET + 400;

	CHECK(!clock_settime(CLOCK_REALTIME, &time));
	check_reads(SET);
	CHECK(!settimeofday(&micros, NULL));
	check_reads(SET + 200);
	CHECK(!set_old_time(&second));
	check_reads(SET + 400);
	CHECK(!syscall(SYS_settimeofday, &micros, NULL));
	check_reads(SET + 200);
	CHECK(!syscall(SYS_clock_settime, CLOCK_REALTIME, &time));
	check_reads(SET);
	CHECK(!settimeofday(NULL, &zone) && !gettimeofday(&micros, &got) &&
	      got.tz_minuteswest == 60);
	got.tz_minuteswest = 0;
	CHECK(!syscall(SYS_gettimeofday, NULL, &got) &&
	      got.tz_minuteswest == 60);
}

static void check_refusals(void)
{
	struct timespec bad = { SET, 1000000000 }, before = { -1, 0 };
	struct timespec far = { 8277292036, 0 }, good = { SET, 0 };
	struct timeval micros = { SET, 1000000 };
	struct timezone zones[] = { { 901, 0 }, { -901, 0 }, { INT_MIN, 0 } };

	CHECK(clock_settime(CLOCK_REALTIME, &bad) && errno == EINVAL);
	CHECK(clock_settime(CLOCK_REALTIME, &before) && errno == EINVAL);
	CHECK(clock_settime(CLOCK_REALTIME, &far) && errno == EINVAL);
	CHECK(clock_settime(CLOCK_MONOTONIC, &good) && errno == EINVAL);
	CHECK(settimeofday(&micros, NULL) && errno == EINVAL);
	for (size_t i = 0; i < sizeof(zones) / sizeof(*zones); i++)
		CHECK(settimeofday(NULL, &zones[i]) && errno == EINVAL);
	CHECK(clock_nanosleep(CLOCK_MONOTONIC, 0, &bad, NULL) == EINVAL);
	CHECK(clock_nanosleep(CLOCK_MONOTONIC_COARSE, 0, &good, NULL) ==
	      EOPNOTSUPP);
	CHECK(nanosleep(&before, NULL) && errno == EINVAL);
}

static void check_denied(void)
{
	struct timespec time = { SET, 5 };
	struct timeval micros = { SET, 0 };
	struct timezone zone = { 60, 0 };

	CHECK(clock_settime(CLOCK_REALTIME, &time) && errno == EPERM);
	CHECK(settimeofday(&micros, NULL) && errno == EPERM);
	CHECK(settimeofday(NULL, &zone) && errno == EPERM);
}

int main(int count, char **words)
{
	bool is_denied = count > 1 && !strcmp(words[1], "deny");

	check_reads(START);
	check_monotonic();
	if (is_denied) {
		check_denied();
		check_reads(START);
	} else {
		check_refusals();
		check_reads(START);
		check_sets();
	}
	check_monotonic();
	return faults > 0;
}
