/* SPDX-License-Identifier: MIT OR Apache-2.0 */
/*
 * Makes requests with a step and a TAI offset while REALTIME is less than two minutes from
 * its limit, 9223372036 s, on a counter of sleeps. Prints what is wrong: a refused request
 * must leave both as they were, and an accepted one must set both.
 */
#define _GNU_SOURCE
#include "faults.h"

#include <stdbool.h>
#include <stdint.h>
#include <sys/timex.h>
#include <time.h>
#include <unistd.h>

static const int64_t LIMIT_SEC = 9223372036, SETTABLE_SEC = 8277292036;

static int64_t second(clockid_t clock)
{
	struct timespec now;

	CHECK(!clock_gettime(clock, &now));
	return now.tv_sec;
}

/* The rules: a step keeps REALTIME below SETTABLE_SEC, and TAI stays below LIMIT_SEC. */
static bool is_possible(int64_t real, bool is_step, int64_t step, int64_t tai)
{
	return (!is_step || real + step < SETTABLE_SEC) &&
	       real + step + tai < LIMIT_SEC;
}

/* No time passes during the call. */
static void check_request(bool is_step, int64_t step, int64_t tai)
{
	int64_t real = second(CLOCK_REALTIME);
	int64_t offset = second(CLOCK_TAI) - real;
	struct timex request = { .modes = ADJ_TAI | (is_step ? ADJ_SETOFFSET : 0),
				 .constant = tai, .time = { step, 0 } };
	int result = adjtimex(&request);

	if (is_possible(real, is_step, step, tai)) {
		CHECK(result >= 0 && request.tai == tai);
		real += step;
		offset = tai;
	} else {
		CHECK(result == -1 && errno == EINVAL);
	}
	CHECK(second(CLOCK_REALTIME) == real);
	CHECK(second(CLOCK_TAI) - real == offset);
}

int main(void)
{
	static const int64_t STEPS[] = { 0, 1, -1, 200, -200, -946079000 };
	static const int64_t OFFSETS[] = { 0, 37, 90, 101, 100000 };

	CHECK(second(CLOCK_REALTIME) == LIMIT_SEC - 101);
	for (int i = 0; i < 5; i++)
		check_request(false, 0, OFFSETS[i]);
	for (int i = 0; i < 30; i++)
		check_request(true, STEPS[i % 6], OFFSETS[i / 6]);
	usleep(1500000); /* a second begins at the next request */
	check_request(true, 946079900, 0);
	check_request(true, -946079999, 100000);
	check_request(true, 1, 37);
	return faults > 0;
}
