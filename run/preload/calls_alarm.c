/* SPDX-License-Identifier: MIT OR Apache-2.0 */
/* calls_alarm.c - the calls that set the one timer of a process, whose signal is SIGALRM. */
#define _GNU_SOURCE
#include "timers.h"

#include <sys/time.h>
#include <unistd.h>

/* A wrong number of us becomes a wrong number of ns. */
static struct timespec of_micros(const struct timeval *span)
{
	bool is_wrong = span->tv_usec < 0 || span->tv_usec >= 1000000;

	return (struct timespec){ span->tv_sec,
				  is_wrong ? -1 : span->tv_usec * 1000 };
}

/* Rounds up, since 0 would mean that it isn't armed. */
static struct timeval to_micros(struct timespec span)
{
	span = later(span, 999);
	return (struct timeval){ span.tv_sec, span.tv_nsec / 1000 };
}

EXPORT int setitimer(__itimer_which_t which,
		     const struct itimerval *restrict in,
		     struct itimerval *restrict out)
{
	struct itimerspec before, after = { 0 };
	int result;

	if (!machine() || which != ITIMER_REAL)
		return REAL(setitimer)(which, in, out);
	if (in)
		after = (struct itimerspec){ of_micros(&in->it_interval),
					     of_micros(&in->it_value) };
	result = timers_set(TIMER_ALARM, 0, false, &after, &before);
	if (!result && out)
		*out = (struct itimerval){ to_micros(before.it_interval),
					   to_micros(before.it_value) };
	return result;
}

EXPORT int getitimer(__itimer_which_t which, struct itimerval *out)
{
	struct itimerspec now = { 0 };

	if (!machine() || which != ITIMER_REAL)
		return REAL(getitimer)(which, out);
	timers_get(TIMER_ALARM, 0, &now);
	*out = (struct itimerval){ to_micros(now.it_interval),
				   to_micros(now.it_value) };
	return 0;
}

EXPORT unsigned int alarm(unsigned int span)
{
	struct itimerval in = { { 0, 0 }, { span, 0 } }, out = { 0 };

	if (!machine())
		return REAL(alarm)(span);
	if (setitimer(ITIMER_REAL, &in, &out))
		return 0;
	/* to the nearest second, and 1 if any time is left */
	if (!out.it_value.tv_sec && out.it_value.tv_usec)
		return 1;
	return (unsigned int)(out.it_value.tv_sec +
			      (out.it_value.tv_usec >= 500000));
}

/* A second or more is EINVAL, as in glibc. */
EXPORT useconds_t ualarm(useconds_t span, useconds_t period)
{
	struct itimerval in = { { 0, period }, { 0, span } }, out = { 0 };

	if (!machine())
		return REAL(ualarm)(span, period);
	if (setitimer(ITIMER_REAL, &in, &out))
		return (useconds_t)-1;
	return (useconds_t)(out.it_value.tv_sec * 1000000 +
			    out.it_value.tv_usec);
}
