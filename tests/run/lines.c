/* SPDX-License-Identifier: MIT OR Apache-2.0 */
/*
 * Reads each clock by the C library and by a system call after random commands. The first is
 * answered by a line, and the second by a snapshot. Both must be equal, unless time passes between
 * them. So the counter must be a slow one, or one of sleeps.
 */
#define _GNU_SOURCE
#include "faults.h"

#include <stdint.h>
#include <stdio.h>
#include <string.h>
#include <sys/syscall.h>
#include <sys/timex.h>
#include <time.h>

enum { ROUNDS = 400 };

static uint64_t state = 88172645463325252;

static uint64_t below(uint64_t end)
{
	state ^= state << 13;
	state ^= state >> 7;
	state ^= state << 17;
	return state % end;
}

/* Makes the system call itself, which no library answers. */
static long read_by_call(clockid_t clock, struct timespec *out)
{
	long result;

	__asm__ volatile("syscall"
			 : "=a"(result)
			 : "a"(SYS_clock_gettime), "D"((long)clock), "S"(out)
			 : "rcx", "r11", "memory");
	return result;
}

static void command(void)
{
	const struct timespec span = { 0, (long)below(20000000) },
			      time = { (time_t)(1000000000 + below(1000000000)),
				       (long)below(1000000000) };
	struct timex timex = { .modes = 0 };

	switch (below(5)) {
	case 0:
		CHECK(!clock_settime(CLOCK_REALTIME, &time));
		return;
	case 1:
		timex.modes = ADJ_FREQUENCY;
		timex.freq = (long)below(65536001) - 32768000;
		break;
	case 2:
		timex.modes = ADJ_TICK;
		timex.tick = (long)(9000 + below(2001));
		break;
	case 3:
		timex.modes = ADJ_TAI;
		timex.constant = (long)below(100001);
		break;
	default:
		CHECK(!nanosleep(&span, NULL));
		return;
	}
	CHECK(adjtimex(&timex) >= 0);
}

static void read_clock(clockid_t clock)
{
	struct timespec by_line, by_call, again;

	do {
		CHECK(!clock_gettime(clock, &by_line));
		CHECK(!read_by_call(clock, &by_call));
		CHECK(!clock_gettime(clock, &again));
	} while (memcmp(&by_line, &again, sizeof(again)));
	CHECK(!memcmp(&by_line, &by_call, sizeof(by_call)));
}

int main(void)
{
	static const clockid_t CLOCKS[] = {
		CLOCK_REALTIME, CLOCK_MONOTONIC, CLOCK_MONOTONIC_RAW, CLOCK_REALTIME_COARSE,
		CLOCK_MONOTONIC_COARSE, CLOCK_BOOTTIME, CLOCK_TAI,
	};

	for (int i = 0; i < ROUNDS; i++) {
		command();
		for (size_t k = 0; k < sizeof(CLOCKS) / sizeof(CLOCKS[0]); k++)
			read_clock(CLOCKS[k]);
	}
	puts("all reads by lines are those by calls");
	return faults;
}
