/* SPDX-License-Identifier: MIT OR Apache-2.0 */
/* calls_read.c - the calls that read a clock. */
#define _GNU_SOURCE
#include "calls.h"
#include "clocks/counter.h"

#include <stddef.h>
#include <sys/time.h>
#include <sys/timeb.h>

static inline int read_clock(clockid_t clock, struct timespec *out,
			     enum read_call call)
{
	struct machine *m = machine();
	int number = m ? machine_clock(clock) : -1;
	struct tkc_time now;

	if (number < 0)
		return m ? host_gettime_by_call(clock, out)
			 : REAL(clock_gettime)(clock, out);
	if (machine_read(m, (uint32_t)number, &now, call))
		return refuse(EOVERFLOW);
	*out = (struct timespec){ now.sec, now.nsec };
	return 0;
}

EXPORT int clock_gettime(clockid_t clock, struct timespec *out)
{
	return read_clock(clock, out, BY_CLOCK_GETTIME);
}

EXPORT int clock_getres(clockid_t clock, struct timespec *out)
{
	struct machine *m = machine();

	if (!m || machine_clock(clock) < 0)
		return REAL(clock_getres)(clock, out);
	if (out)
		*out = machine_resolution(m->shared, clock);
	return 0;
}

/* The kernel's call stores no time at NULL, though the header declares that it isn't
 * NULL. */
EXPORT int gettimeofday(struct timeval *restrict out, void *restrict zone)
{
	struct machine *m = machine();
	struct timespec now;

	__asm__("" : "+r"(out)); /* so the compiler doesn't rely on the header */
	if (zone && m)
		machine_zone(m, zone);
	else if (zone)
		*(struct timezone *)zone = (struct timezone){ 0 };
	if (read_clock(CLOCK_REALTIME, &now, BY_GETTIMEOFDAY))
		return -1;
	if (out)
		*out = (struct timeval){ now.tv_sec, now.tv_nsec / 1000 };
	return 0;
}

EXPORT time_t time(time_t *out)
{
	struct timespec now = { -1, 0 };

	read_clock(CLOCK_REALTIME_COARSE, &now, BY_TIME);
	if (out)
		*out = now.tv_sec;
	return now.tv_sec;
}

EXPORT int timespec_get(struct timespec *out, int base)
{
	if (base != TIME_UTC || read_clock(CLOCK_REALTIME, out, BY_TIMESPEC_GET))
		return 0;
	return base;
}

EXPORT int ftime(struct timeb *out)
{
	struct timespec now;

	if (read_clock(CLOCK_REALTIME, &now, BY_FTIME))
		return -1;
	*out = (struct timeb){ .time = now.tv_sec,
			       .millitm = (unsigned short)(now.tv_nsec /
							   1000000) };
	return 0;
}
