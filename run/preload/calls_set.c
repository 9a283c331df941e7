/* SPDX-License-Identifier: MIT OR Apache-2.0 */
/* calls_set.c - the calls that set a clock, or steer it. */
#define _GNU_SOURCE
#include "calls.h"

#include <sys/time.h>
#include <sys/timex.h>

enum { MICROS = 1000000 };

static int set_time(const char *call, int64_t sec, int64_t nsec)
{
	int error = machine_set_time(machine(), sec, nsec);

	log_time(this_call(call, -error), sec, nsec);
	return error ? refuse(error) : 0;
}

EXPORT int clock_settime(clockid_t clock, const struct timespec *time)
{
	if (!machine())
		return REAL(clock_settime)(clock, time);
	if (clock == CLOCK_REALTIME)
		return set_time("clock_settime", time->tv_sec, time->tv_nsec);
	log_clock(this_call("clock_settime", -EINVAL), clock);
	return refuse(EINVAL);
}

int set_micros(const struct timeval *time, const struct timezone *zone)
{
	int error = machine_set_micros(machine(), time, zone);

	if (time)
		log_micros(this_call("settimeofday", -error), time);
	return error ? refuse(error) : 0;
}

/* The kernel's call sets both, and the C library's refuses that. */
EXPORT int settimeofday(const struct timeval *time, const struct timezone *zone)
{
	if (!machine())
		return REAL(settimeofday)(time, zone);
	return time && zone ? refuse(EINVAL) : set_micros(time, zone);
}

/* glibc has it only for programs that were linked before 2.31. */
EXPORT int stime(const time_t *when)
{
	if (!machine())
		return refuse(ENOSYS);
	return set_time("stime", *when, 0);
}

static int adjust(const char *call, struct timex *tx)
{
	struct timex in = *tx;
	int result = machine_adjtimex(machine(), tx);

	log_request(this_call(call, result), &in);
	return result < 0 ? refuse(-result) : result;
}

EXPORT int adjtimex(struct timex *tx)
{
	return machine() ? adjust("adjtimex", tx) : REAL(adjtimex)(tx);
}

EXPORT int __adjtimex(struct timex *tx)
{
	return adjtimex(tx);
}

EXPORT int ntp_adjtime(struct timex *tx)
{
	return machine() ? adjust("ntp_adjtime", tx) : REAL(ntp_adjtime)(tx);
}

EXPORT int clock_adjtime(clockid_t clock, struct timex *tx)
{
	int error = machine_adjust_error(clock);

	if (!machine())
		return REAL(clock_adjtime)(clock, tx);
	if (error)
		return refuse(error);
	return adjust("clock_adjtime", tx);
}

/* Stores a span in us. Returns false beyond glibc's limits, within which that is 32
 * bits. */
static bool to_micros(const struct timeval *span, long *micros)
{
	long sec;

	if (__builtin_add_overflow(span->tv_sec, span->tv_usec / MICROS,
				   &sec) ||
	    sec > INT32_MAX / MICROS - 2 || sec < INT32_MIN / MICROS + 2)
		return false;
	*micros = sec * MICROS + span->tv_usec % MICROS;
	return true;
}

EXPORT int adjtime(const struct timeval *in, struct timeval *out)
{
	struct timex tx = { .modes = in ? ADJ_OFFSET_SINGLESHOT
					: ADJ_OFFSET_SS_READ };

	if (!machine())
		return REAL(adjtime)(in, out);
	if (in && !to_micros(in, &tx.offset))
		return refuse(EINVAL);
	if (adjust("adjtime", &tx) < 0)
		return -1;
	if (out)
		*out = (struct timeval){ tx.offset / MICROS,
					 tx.offset % MICROS };
	return 0;
}

EXPORT int ntp_gettimex(struct ntptimeval *out)
{
	struct timex tx = { 0 };
	int result;

	if (!machine())
		return REAL(ntp_gettimex)(out);
	result = adjust("ntp_gettimex", &tx);
	if (result >= 0)
		*out = (struct ntptimeval){ .time = tx.time,
					    .maxerror = tx.maxerror,
					    .esterror = tx.esterror,
					    .tai = tx.tai };
	return result;
}

/* The header redirects ntp_gettime to ntp_gettimex. glibc 2.36's older function stores the
 * TAI offset, too. */
EXPORT int old_ntp_gettime(struct ntptimeval *out) __asm__("ntp_gettime");

int old_ntp_gettime(struct ntptimeval *out)
{
	return ntp_gettimex(out);
}
