/* SPDX-License-Identifier: MIT OR Apache-2.0 */
/* timer_host.c - the host's timer of each timer. */
#define _GNU_SOURCE
#include "timer_host.h"

#include <poll.h>
#include <stdio.h>
#include <sys/ioctl.h>
#include <sys/timerfd.h>

#ifndef TFD_IOC_SET_TICKS /* in linux/timerfd.h */
#define TFD_IOC_SET_TICKS _IOW('T', 0, uint64_t)
#endif

enum {
	EXPIRY_NAP_NANOS = 20000, /* between two looks whether a timer expired */
	EXPIRY_MOST_NANOS = 1000000000, /* the longest wait until it has */
	OVERRUNS_MOST = 1000000000,	/* with periods of a second of the host */
};

uint64_t timer_nanos(const struct timespec *span)
{
	if (span->tv_sec >= INT64_MAX / NANOS)
		return INT64_MAX;
	return (uint64_t)span->tv_sec * NANOS + (uint64_t)span->tv_nsec;
}

struct timeval timer_micros(const struct timespec *span)
{
	uint64_t micros = (timer_nanos(span) + 999) / 1000;

	return (struct timeval){ (time_t)(micros / 1000000),
				 (suseconds_t)(micros % 1000000) };
}

int timer_set_host(const struct timer *timer, uint64_t span, uint64_t period)
{
	struct itimerspec host = { span_of(period), span_of(span) };
	struct itimerval micros = { timer_micros(&host.it_interval),
				    timer_micros(&host.it_value) };

	switch (timer->kind) {
	case TIMER_FILE:
		return REAL(timerfd_settime)(timer_file(timer), 0, &host, NULL);
	case TIMER_POSIX:
		return REAL(timer_settime)(timer_posix(timer), 0, &host, NULL);
	case TIMER_ALARM:
		return REAL(setitimer)(ITIMER_REAL, &micros, NULL);
	default:
		return 0;
	}
}

/* A timer that is due states a rest of 1 ns, and one with overruns that has expired a
 * long one. */
bool timer_has_expired(const struct timer *timer)
{
	struct itimerspec host = { 0 };
	struct itimerval micros = { 0 };

	if (timer->kind == TIMER_FILE)
		REAL(timerfd_gettime)(timer_file(timer), &host);
	else if (timer->kind == TIMER_POSIX)
		REAL(timer_gettime)(timer_posix(timer), &host);
	else
		REAL(getitimer)(ITIMER_REAL, &micros);
	if (timer->kind == TIMER_POSIX && host.it_interval.tv_sec &&
	    timer->overruns)
		return host.it_value.tv_sec || host.it_value.tv_nsec != 1;
	return !host.it_value.tv_sec && !host.it_value.tv_nsec &&
	       !micros.it_value.tv_sec && !micros.it_value.tv_usec;
}

bool timer_is_unread(const struct timer *timer)
{
	struct pollfd file = { timer_file(timer), POLLIN, 0 };

	return timer->kind == TIMER_FILE && REAL(poll)(&file, 1, 0) > 0;
}

/* Returns the expiries of a file that nobody has read. */
static uint64_t unread_count(const struct timer *timer)
{
	unsigned long long count = 0;
	char path[64], line[128];
	FILE *file;

	if (!timer_is_unread(timer))
		return 0;
	snprintf(path, sizeof(path), "/proc/self/fdinfo/%d", timer_file(timer));
	file = fopen(path, "re");
	while (file && fgets(line, sizeof(line), file))
		sscanf(line, "ticks: %llu", &count);
	if (file)
		fclose(file);
	return count;
}

/* Returns whether a timer's last signal hasn't been delivered. The caller has blocked all
 * signals, so this is one of the process or of the timer's own thread. */
static bool is_pending(const struct timer *timer)
{
	unsigned long long bits = 0;
	char path[64], line[256];
	sigset_t set;
	FILE *file;

	if (!timer->signal)
		return false;
	if (!timer->thread)
		return !sigpending(&set) && sigismember(&set, timer->signal) == 1;
	snprintf(path, sizeof(path), "/proc/self/task/%d/status",
		 timer->thread);
	file = fopen(path, "re");
	while (file && fgets(line, sizeof(line), file))
		sscanf(line, "SigPnd: %llx", &bits);
	if (file)
		fclose(file);
	return bits >> (timer->signal - 1) & 1;
}

/*
 * Sets the host's timer of REALTIME so that it expires at once, and has as many overruns
 * when its signal is delivered: it was due this many periods ago. The periods are years.
 */
static void set_overruns(const struct timer *timer, uint64_t count)
{
	uint64_t now = host_nanos(CLOCK_REALTIME), period;
	struct itimerspec host;

	if (count > OVERRUNS_MOST)
		count = OVERRUNS_MOST;
	period = now / (count + 2);
	host.it_interval = span_of(period);
	host.it_value = span_of(now - count * period - period / 2);
	REAL(timer_settime)(timer_posix(timer), TIMER_ABSTIME, &host, NULL);
}

static bool has_same_signal(const struct timer *timer, const struct timer *other)
{
	return other->kind == TIMER_POSIX && other->signal == timer->signal &&
	       other->thread == timer->thread;
}

/* Returns whether the pending signal of a timer is its own. If another timer that has the
 * same signal has expired too, nothing says whose it is. */
static bool is_own_signal(const struct timer *timer)
{
	for (const struct timer *other = timers_all(); other;
	     other = other->link) {
		if (other != timer && has_same_signal(timer, other) &&
		    other->has_expired)
			return false;
	}
	return timer->has_expired;
}

/* Notes that the signal of a timer isn't pending, so no timer that has it has expired. */
static void note_delivery(const struct timer *timer)
{
	for (struct timer *other = timers_all(); other; other = other->link) {
		if (has_same_signal(timer, other))
			other->has_expired = false;
	}
}

/* Lets a timer with a number expire. Its expiries before its signal is delivered are
 * overruns. */
static void expire_posix(struct timer *timer, uint64_t count)
{
	if (!is_pending(timer))
		note_delivery(timer);
	if (is_own_signal(timer))
		timer->overruns += count;
	else
		timer->overruns = count - 1;
	timer->has_expired = true;
	if (timer->overruns)
		set_overruns(timer, timer->overruns);
	else
		timer_set_host(timer, 1, 0);
}

void timer_expire(struct timer *timer, uint64_t count)
{
	uint64_t until = host_nanos(CLOCK_MONOTONIC) + EXPIRY_MOST_NANOS;

	if (timer->kind == TIMER_FILE) {
		count += unread_count(timer);
		if (!ioctl(timer_file(timer), TFD_IOC_SET_TICKS, &count))
			return;
	}
	if (timer->kind == TIMER_POSIX)
		expire_posix(timer, count);
	else
		timer_set_host(timer, 1, 0);
	while (!timer_has_expired(timer) &&
	       host_nanos(CLOCK_MONOTONIC) < until)
		host_nap(EXPIRY_NAP_NANOS);
}
