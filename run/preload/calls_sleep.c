/* SPDX-License-Identifier: MIT OR Apache-2.0 */
/* calls_sleep.c - the calls that only sleep. */
#define _GNU_SOURCE
#include "calls.h"

#include <unistd.h>

/* Sleeps for a span of a clock. Returns 0 or an error. */
static int sleep_for(struct machine *m, int clock, const struct timespec *span,
		     struct timespec *rest)
{
	struct timespec until;
	int error;

	if (!span->tv_sec && !span->tv_nsec) {
		machine_polled(m, 1);
		return 0;
	}
	if (!machine_after(m, clock, span, &until))
		return EINVAL;
	error = machine_sleep(m, (uint32_t)clock, until.tv_sec,
			      (uint32_t)until.tv_nsec);
	if (error && rest)
		*rest = machine_until(m, clock, &until);
	return error;
}

EXPORT int clock_nanosleep(clockid_t clock, int flags,
			   const struct timespec *time, struct timespec *rest)
{
	struct machine *m = machine();
	int number = m ? machine_clock(clock) : -1;

	if (number < 0)
		return REAL(clock_nanosleep)(clock, flags, time, rest);
	if (number == CLOCK_REALTIME_COARSE ||
	    number == CLOCK_MONOTONIC_COARSE || number == CLOCK_MONOTONIC_RAW)
		return EOPNOTSUPP;
	if (time->tv_sec < 0 || is_bad(time))
		return EINVAL;
	if (flags & TIMER_ABSTIME)
		return machine_sleep(m, (uint32_t)number, time->tv_sec,
				     (uint32_t)time->tv_nsec);
	/* a step doesn't change a span */
	if (number != CLOCK_BOOTTIME)
		number = CLOCK_MONOTONIC;
	return sleep_for(m, number, time, rest);
}

EXPORT int nanosleep(const struct timespec *span, struct timespec *rest)
{
	struct machine *m = machine();
	int error;

	if (!m)
		return REAL(nanosleep)(span, rest);
	error = sleep_for(m, CLOCK_MONOTONIC, span, rest);
	return error ? refuse(error) : 0;
}

EXPORT int thrd_sleep(const struct timespec *span, struct timespec *rest)
{
	if (!nanosleep(span, rest))
		return 0;
	return errno == EINTR ? -1 : -2;
}

EXPORT int usleep(useconds_t span)
{
	struct timespec time = { span / 1000000, span % 1000000 * 1000L };

	return nanosleep(&time, NULL);
}

EXPORT unsigned int sleep(unsigned int span)
{
	struct timespec time = { span, 0 }, rest = { 0 };

	if (!nanosleep(&time, &rest))
		return 0;
	return (unsigned int)rest.tv_sec; /* rounded down, as by glibc */
}
