/* SPDX-License-Identifier: MIT OR Apache-2.0 */
/*
 * Steers the clocks at random: requests of adjtimex, sets to the end of a day, sleeps
 * and reads. Each run makes the same calls.
 *
 *	orders COUNT
 */
#define _GNU_SOURCE
#include <stdint.h>
#include <stdlib.h>
#include <sys/timex.h>
#include <time.h>

enum { DAY = 86400, PPM = 65536 };

static uint64_t state = 1;

/* Returns a number below `end` (xorshift64). */
static long below(long end)
{
	state ^= state << 13;
	state ^= state >> 7;
	state ^= state << 17;
	return (long)(state % (uint64_t)end);
}

static void steer(void)
{
	static const unsigned int modes[] = {
		ADJ_OFFSET | ADJ_STATUS | ADJ_TIMECONST | ADJ_NANO,
		ADJ_STATUS, ADJ_FREQUENCY, ADJ_TICK, ADJ_TAI,
		ADJ_OFFSET_SINGLESHOT, ADJ_OFFSET_SS_READ, 0,
		ADJ_SETOFFSET | ADJ_NANO, ADJ_SETOFFSET | ADJ_OFFSET | ADJ_STATUS,
	};
	static const int status[] = { 0, STA_PLL, STA_INS, STA_DEL, STA_PLL | STA_INS };
	struct timex timex = {
		.modes = modes[below(sizeof(modes) / sizeof(*modes))],
		.offset = below(2000000) - 1000000,
		.freq = below(1200 * PPM) - 600 * PPM,
		.status = status[below(sizeof(status) / sizeof(*status))],
		.tick = 8900 + below(2200),
		.constant = below(12),
		.time = { .tv_sec = below(2000) - 1000, .tv_usec = below(1000001) },
	};

	adjtimex(&timex);
}

/* Sets REALTIME to shortly before the end of the day. */
static void set_day_end(void)
{
	struct timespec time;

	clock_gettime(CLOCK_REALTIME, &time);
	time.tv_sec += DAY - time.tv_sec % DAY - 1 - below(2);
	clock_settime(CLOCK_REALTIME, &time);
}

static void wait_a_while(void)
{
	struct timespec span = { below(4), below(1000000000) };

	nanosleep(&span, NULL);
}

int main(int argc, char **argv)
{
	struct timespec time;

	for (long count = argc > 1 ? atol(argv[1]) : 0; count > 0; count--) {
		switch (below(8)) {
		case 0:
		case 1:
		case 2:
		case 3:
			steer();
			break;
		case 4:
			set_day_end();
			break;
		case 5:
			clock_gettime(CLOCK_TAI, &time);
			break;
		default:
			wait_a_while();
		}
	}
	return 0;
}
