/* SPDX-License-Identifier: MIT OR Apache-2.0 */
/*
 * Makes each call that steers a clock, and prints what is wrong. The values are
 * those of adjtimex(2). The clocks have started at 2001-09-09, 1000000000, and
 * run on a counter of sleeps. With the argument "deny", each call that sets
 * something must fail with EPERM.
 */
#define _GNU_SOURCE
#include "faults.h"

#include <dlfcn.h>
#include <stdbool.h>
#include <stdio.h>
#include <stdlib.h>
#include <string.h>
#include <sys/syscall.h>
#include <sys/time.h>
#include <sys/timex.h>
#include <time.h>
#include <unistd.h>

#ifndef ADJ_SETOFFSET
#define ADJ_SETOFFSET 0x0100
#endif

enum { PPM = 65536 };

static const time_t START = 1000000000;
static double seconds(clockid_t clock)
{
	struct timespec time;

	clock_gettime(clock, &time);
	return (double)time.tv_sec + (double)time.tv_nsec / 1e9;
}

/* The C library still has the older function, except in a static program. */
static void check_old_reply(void)
{
	int (*old)(struct ntptimeval *) =
		(int (*)(struct ntptimeval *))dlsym(RTLD_DEFAULT,
						    "ntp_gettime");
	struct ntptimeval all = { .tai = 77 };

	if (!old)
		return;
	CHECK(old(&all) == TIME_ERROR && all.time.tv_sec == START);
	CHECK(all.maxerror == 16000000 && !all.tai);
}

/* A fresh discipline isn't synchronized. */
static void check_reply(void)
{
	struct timex tx = { 0 };
	struct ntptimeval all;

	CHECK(adjtimex(&tx) == TIME_ERROR);
	CHECK(tx.status == STA_UNSYNC && tx.tick == 10000 && !tx.freq);
	CHECK(tx.precision == 1 && tx.tolerance == 500 * PPM);
	CHECK(tx.time.tv_sec == START && !tx.offset && tx.constant == 2);
	CHECK(ntp_adjtime(&tx) == TIME_ERROR);
	CHECK(clock_adjtime(CLOCK_REALTIME, &tx) == TIME_ERROR);
	CHECK(clock_adjtime(CLOCK_MONOTONIC, &tx) == -1 && errno == EOPNOTSUPP);
	CHECK(syscall(SYS_adjtimex, &tx) == TIME_ERROR);
	CHECK(syscall(SYS_clock_adjtime, CLOCK_REALTIME, &tx) == TIME_ERROR);
	CHECK(ntp_gettime(&all) == TIME_ERROR && all.time.tv_sec == START);
	CHECK(all.maxerror == 16000000 && !all.tai);
	check_old_reply();
}

/* At 500 ppm, MONOTONIC goes 100 s while the counter goes 100 / 1.0005 s. */
static void check_frequency(void)
{
	struct timex tx = { .modes = ADJ_FREQUENCY, .freq = 500 * PPM };
	double monotonic, raw;

	CHECK(adjtimex(&tx) == TIME_ERROR && tx.freq == 500 * PPM);
	monotonic = seconds(CLOCK_MONOTONIC);
	raw = seconds(CLOCK_MONOTONIC_RAW);
	sleep(100);
	monotonic = seconds(CLOCK_MONOTONIC) - monotonic - 100;
	raw = seconds(CLOCK_MONOTONIC_RAW) - raw - 100 / 1.0005;
	CHECK(monotonic >= 0 && monotonic < 1e-6 && raw > -1e-6 && raw < 1e-6);
	tx = (struct timex){ .modes = ADJ_FREQUENCY, .freq = 1000 * PPM };
	CHECK(adjtimex(&tx) == TIME_ERROR && tx.freq == 500 * PPM);
	tx = (struct timex){ .modes = ADJ_FREQUENCY };
	CHECK(adjtimex(&tx) == TIME_ERROR && !tx.freq);
}

static void check_tick(void)
{
	struct timex tx = { .modes = ADJ_TICK, .tick = 10001 };

	CHECK(adjtimex(&tx) == TIME_ERROR && tx.tick == 10001);
	tx = (struct timex){ .modes = ADJ_TICK, .tick = 8999 };
	CHECK(adjtimex(&tx) == -1 && errno == EINVAL);
	tx = (struct timex){ .modes = ADJ_TICK, .tick = 11001 };
	CHECK(adjtimex(&tx) == -1 && errno == EINVAL);
	tx = (struct timex){ .modes = ADJ_TICK, .tick = 10000 };
	CHECK(adjtimex(&tx) == TIME_ERROR && tx.tick == 10000);
}

static void check_status(void)
{
	struct timex tx = { .modes = ADJ_STATUS, .status = STA_PLL };

	CHECK(adjtimex(&tx) == TIME_OK && tx.status == STA_PLL);
	tx = (struct timex){ .modes = ADJ_TAI, .constant = 37 };
	CHECK(adjtimex(&tx) == TIME_OK && tx.tai == 37);
	CHECK(seconds(CLOCK_TAI) - seconds(CLOCK_REALTIME) == 37);
	tx = (struct timex){ .modes = ADJ_NANO };
	CHECK(adjtimex(&tx) == TIME_OK && tx.status & STA_NANO);
}

/* A step makes the clock unsynchronized. */
static void check_step(void)
{
	struct timex tx = { .modes = ADJ_SETOFFSET | ADJ_NANO,
			    .time = { 100, 500000000 } };
	double before = seconds(CLOCK_REALTIME);

	CHECK(adjtimex(&tx) == TIME_ERROR && tx.status & STA_UNSYNC);
	CHECK(seconds(CLOCK_REALTIME) - before == 100.5);
	tx = (struct timex){ .modes = ADJ_SETOFFSET | ADJ_NANO,
			     .time = { 0, 1000000000 } };
	CHECK(adjtimex(&tx) == -1 && errno == EINVAL);
}

/* Half a millisecond a second is made up for. */
static void check_adjtime(void)
{
	struct timeval in = { 0, 2000 }, out;

	CHECK(!adjtime(&in, &out) && !out.tv_sec && !out.tv_usec);
	CHECK(!adjtime(NULL, &out) && !out.tv_sec && out.tv_usec == 2000);
	sleep(10);
	CHECK(!adjtime(NULL, &out) && !out.tv_sec && !out.tv_usec);
	in.tv_sec = 3000;
	CHECK(adjtime(&in, NULL) == -1 && errno == EINVAL);
	in = (struct timeval){ 0, 3000000000 };
	CHECK(adjtime(&in, NULL) == -1 && errno == EINVAL);
}

static void check_denied(void)
{
	struct timex tx = { .modes = ADJ_FREQUENCY };
	struct timeval span = { 1, 0 };

	CHECK(adjtimex(&tx) == -1 && errno == EPERM);
	CHECK(clock_adjtime(CLOCK_REALTIME, &tx) == -1 && errno == EPERM);
	CHECK(adjtime(&span, NULL) == -1 && errno == EPERM);
	CHECK(!adjtime(NULL, &span));
}

int main(int count, char **words)
{
	check_reply();
	if (count > 1 && !strcmp(words[1], "deny")) {
		check_denied();
		check_reply();
		return faults > 0;
	}
	check_frequency();
	check_tick();
	check_status();
	check_step();
	check_adjtime();
	return faults > 0;
}
