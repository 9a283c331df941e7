// SPDX-License-Identifier: GPL-2.0
/*
 * Gives wrong and right arguments to settimeofday, clock_settime, adjtimex and clock_adjtime, and
 * prints an answer a line. Both kernels get the same calls, and `compare` compares their lines.
 *
 *     wrong CALLS
 *
 * An answer is 0 or the negative errno. An accepted request's answer also has the numbers of its
 * reply that don't depend on the time of the call. It ends with status 1 if no call or every call
 * is refused.
 */
#define _GNU_SOURCE
#include <errno.h>
#include <limits.h>
#include <stdio.h>
#include <stdlib.h>
#include <sys/syscall.h>
#include <sys/time.h>
#include <sys/timex.h>
#include <time.h>
#include <unistd.h>

#define CHOOSE(list) ((list)[next_random() % (sizeof(list) / sizeof(*(list)))])

/* Numbers next to the limits of seconds, of their parts, and of the other fields. */
static const long seconds[] = { LONG_MIN, -1, 0, 1, 1700000000, 1L << 31, 8277292035, 8277292036,
				9223372035, 9223372036, 1L << 62 };
static const long parts[] = { LONG_MIN, -1, 0, 1, 999999, 1000000, 999999999, 1000000000 };
static const long numbers[] = { LONG_MIN, -140737488356, -140737488355, -1, 0, 37, 8999, 9000,
				11000, 11001, 100001, 1L << 40, LONG_MAX };
static const int clocks[] = { CLOCK_REALTIME, CLOCK_REALTIME, CLOCK_REALTIME, CLOCK_MONOTONIC,
			      CLOCK_BOOTTIME, CLOCK_TAI, 10, 16, -1, -2, 1 << 30 };
static const int minutes[] = { -901, -900, 0, 900, 901 };

static unsigned long next_random(void)
{
	static unsigned long state = 88172645463325252;

	state ^= state << 13;
	state ^= state >> 7;
	state ^= state << 17;
	return state >> 16;
}

static long answer_of(long returned)
{
	return returned < 0 ? -errno : 0;
}

static long set_day(void)
{
	struct timeval time = { CHOOSE(seconds), CHOOSE(parts) };
	struct timezone zone = { CHOOSE(minutes), 0 };
	int is_time = next_random() % 4 != 0, is_zone = next_random() % 4 == 0;
	long answer = answer_of(syscall(SYS_settimeofday, is_time ? &time : NULL,
					is_zone ? &zone : NULL));

	printf("settimeofday");
	if (is_time)
		printf(" %ld %ld", time.tv_sec, time.tv_usec);
	if (is_zone)
		printf(" zone %d", zone.tz_minuteswest);
	return answer;
}

static long set_clock(void)
{
	struct timespec time = { CHOOSE(seconds), CHOOSE(parts) };
	int clock = CHOOSE(clocks);
	long answer = answer_of(syscall(SYS_clock_settime, clock, &time));

	printf("clock_settime %d: %ld %ld", clock, time.tv_sec, time.tv_nsec);
	return answer;
}

static struct timex request(void)
{
	struct timex request = { .offset = CHOOSE(numbers), .freq = CHOOSE(numbers),
				 .maxerror = CHOOSE(numbers), .esterror = CHOOSE(numbers),
				 .status = next_random() & 0xffff, .constant = CHOOSE(numbers),
				 .tick = CHOOSE(numbers) };

	for (int count = next_random() % 4; count > 0; count--)
		request.modes |= 1 << next_random() % 16;
	request.time.tv_sec = CHOOSE(seconds);
	request.time.tv_usec = CHOOSE(parts);
	return request;
}

static long adjust(int is_of_clock)
{
	struct timex asked = request(), reply = asked;
	int clock = CHOOSE(clocks);
	long answer = answer_of(is_of_clock ? syscall(SYS_clock_adjtime, clock, &reply) :
				syscall(SYS_adjtimex, &reply));

	if (is_of_clock)
		printf("clock_adjtime %d:", clock);
	else
		printf("adjtimex");
	printf(" modes %#x offset %ld freq %ld errors %ld %ld status %#x constant %ld tick %ld"
	       " time %ld %ld", asked.modes, asked.offset, asked.freq, asked.maxerror,
	       asked.esterror, asked.status, asked.constant, asked.tick, asked.time.tv_sec,
	       asked.time.tv_usec);
	if (!answer)
		printf(", reply: status %#x constant %ld tick %ld tai %d",
		       reply.status & ~STA_UNSYNC, reply.constant, reply.tick, reply.tai);
	return answer;
}

int main(int count, char **words)
{
	long calls = count == 2 ? atol(words[1]) : 0, refused = 0;

	for (long i = 0; i < calls; i++) {
		long kind, answer;

		printf("ANSWER %ld ", i);
		kind = next_random() % 4;
		answer = kind == 0 ? set_day() : kind == 1 ? set_clock() : adjust(kind & 1);
		printf(" = %ld\n", answer);
		refused += answer != 0;
	}
	printf("wrong: %ld of %ld calls were refused\n", refused, calls);
	return refused == 0 || refused == calls;
}
