/* SPDX-License-Identifier: MIT OR Apache-2.0 */
/* timers.c - sets the timers of a process, and lets them expire. */
#define _GNU_SOURCE
#include "timer_host.h"

#include <sys/time.h>
#include <sys/timerfd.h>
#include <unistd.h>

enum { HELD_SEC = INT32_MAX }; /* the host's, of an alarm that doesn't expire */

/* Returns the host's ns in which MONOTONIC moves on by a period. */
static uint64_t host_period(struct machine *m, uint64_t period)
{
	struct timespec span = span_of(period), until;
	uint64_t left;

	if (!period || !machine_after(m, CLOCK_MONOTONIC, &span, &until))
		return 0;
	left = machine_left(m, CLOCK_MONOTONIC, until.tv_sec,
			    (uint32_t)until.tv_nsec);
	return left > INT64_MAX ? 0 : left;
}

/* Returns by how many ns a clock is past a time, or -1. With a counter of sleeps, a timer
 * expires when the clock is past its time, as a wait ends then. */
static int64_t late_nanos(const struct machine *m, const struct tkc_time *now,
			  const struct timespec *time)
{
	int64_t least = m->shared->kind == COUNTER_SLEEPS, late;

	if (now->sec < time->tv_sec)
		return -1;
	/* no clock reaches 2^63 ns */
	late = (now->sec - time->tv_sec) * NANOS + (int64_t)now->nsec -
	       time->tv_nsec;
	return late < least ? -1 : late;
}

/* Moves `next` to the first time that the clock hasn't reached, by whole
 * periods. Returns the number of times that it has reached. */
static uint64_t skip_reached(struct machine *m, struct timer *timer)
{
	struct tkc_snapshot snapshot;
	struct tkc_time now;
	uint64_t count = 1, reading;
	int64_t late;

	/* this isn't a read of the program */
	if (machine_look(m, &snapshot, &reading) ||
	    tkc_snapshot_get(&now, &snapshot, (uint32_t)timer->clock, reading))
		return 0;
	late = late_nanos(m, &now, &timer->next);
	if (late < 0)
		return 0;
	if (timer->period) {
		if (m->shared->kind == COUNTER_SLEEPS)
			late--;
		count = (uint64_t)late / timer->period + 1;
		timer->next = later(timer->next, count * timer->period);
	}
	return count;
}

/* Keeps the host's timer from expiring. That of alarm outlives execve: so with a counter
 * of sleeps its interval states the time, for timers_resume. */
static int hold_host(struct machine *m, const struct timer *timer)
{
	struct itimerval host = { timer_micros(&timer->next), { HELD_SEC, 0 } };

	if (timer->kind != TIMER_ALARM || m->shared->kind != COUNTER_SLEEPS)
		return timer_set_host(timer, 0, 0);
	return REAL(setitimer)(ITIMER_REAL, &host, NULL);
}

void timers_resume(struct machine *m)
{
	struct timer *timer = timer_find(TIMER_ALARM, 0);
	struct itimerval host;
	sigset_t saved;

	if (m->shared->kind != COUNTER_SLEEPS ||
	    REAL(getitimer)(ITIMER_REAL, &host) ||
	    host.it_value.tv_sec < HELD_SEC / 2)
		return;
	timers_lock(&saved);
	timer->clock = CLOCK_MONOTONIC;
	timer->next = (struct timespec){ host.it_interval.tv_sec,
					 host.it_interval.tv_usec * 1000 };
	timer->is_armed = follow_start();
	timers_unlock(&saved);
}

/* Lets a timer expire if its time has come, with a counter of sleeps, and
 * lists the time that it waits for. The thread that follows calls it. */
static void follow_sleeps(struct machine *m, struct timer *timer)
{
	uint64_t count = skip_reached(m, timer);

	if (count) {
		timer_expire(timer, count);
		timer->is_armed = timer->period;
		waiter_leave(&timer->ticket);
		if (timer->is_armed && timer->kind == TIMER_ALARM)
			hold_host(m, timer); /* a file would lose expiries */
	}
	if (timer->is_armed && !timer->ticket.waiter)
		timer->ticket = waiter_enter(m, (uint32_t)timer->clock,
					     timer->next.tv_sec,
					     (uint32_t)timer->next.tv_nsec);
}

/* Arms the host's timer for what is left. */
static int arm(struct machine *m, struct timer *timer)
{
	uint64_t left = machine_left(m, (uint32_t)timer->clock,
				     timer->next.tv_sec,
				     (uint32_t)timer->next.tv_nsec);

	timer->is_stale = false;
	timer->is_held = left > INT64_MAX; /* asleep, or a counter of sleeps */
	if (timer->is_held)
		return hold_host(m, timer);
	return timer_set_host(timer, left ? left : 1, host_period(m, timer->period));
}

/* Returns whether a timer's file was closed. Another file may have its number. */
static bool is_closed(const struct timer *timer)
{
	struct itimerspec host;

	return timer->kind == TIMER_FILE &&
	       REAL(timerfd_gettime)(timer_file(timer), &host);
}

void timer_follow(struct machine *m, struct timer *timer)
{
	if (!timer->is_armed)
		return;
	if (is_closed(timer)) {
		timer_remove(timer);
		return;
	}
	if (m->shared->kind == COUNTER_SLEEPS) {
		follow_sleeps(m, timer);
		return;
	}
	if (!timer->period && !timer->is_held && timer_has_expired(timer)) {
		timer->is_armed = false;
		return;
	}
	if (!timer->is_stale || timer_is_unread(timer))
		return;
	skip_reached(m, timer);
	arm(m, timer);
}

void timer_store(struct machine *m, struct timer *timer, struct itimerspec *out)
{
	*out = (struct itimerspec){ 0 };
	if (!timer->is_armed)
		return;
	if (m->shared->kind != COUNTER_SLEEPS && skip_reached(m, timer) &&
	    !timer->period)
		timer->is_armed = false;
	out->it_interval = span_of(timer->period);
	if (timer->is_armed)
		out->it_value = machine_until(m, timer->clock, &timer->next);
}

/* Finds the time at which a timer is to expire. A step doesn't change a span,
 * so a span of REALTIME ends on MONOTONIC. Returns whether there is one. */
static bool set_next(struct machine *m, struct timer *timer, bool is_absolute,
		     const struct timespec *value)
{
	timer->clock = timer->own_clock;
	timer->next = *value;
	if (is_absolute)
		return true;
	if (timer->clock != CLOCK_BOOTTIME)
		timer->clock = CLOCK_MONOTONIC;
	return machine_after(m, timer->clock, value, &timer->next);
}

int timer_set(struct machine *m, struct timer *timer, bool is_absolute,
	      const struct itimerspec *in)
{
	if (is_bad(&in->it_value) || is_bad(&in->it_interval) ||
	    in->it_value.tv_sec < 0 || in->it_interval.tv_sec < 0)
		return refuse(EINVAL);
	waiter_leave(&timer->ticket);
	timer->is_armed = in->it_value.tv_sec || in->it_value.tv_nsec;
	if (!timer->is_armed)
		return timer_set_host(timer, 0, 0);
	if (!set_next(m, timer, is_absolute, &in->it_value))
		return refuse(EINVAL);
	timer->period = timer_nanos(&in->it_interval);
	if (!follow_start() && m->shared->kind == COUNTER_SLEEPS) {
		timer->is_armed = false; /* nobody would let it expire */
		return refuse(EAGAIN);
	}
	if (m->shared->kind == COUNTER_SLEEPS)
		follow_wake(m);
	return arm(m, timer);
}

int timers_set(enum timer_kind kind, intptr_t number, bool is_absolute,
	       const struct itimerspec *in, struct itimerspec *out)
{
	struct machine *m = machine();
	int result = TIMER_OF_HOST;
	struct itimerspec before;
	struct timer *timer;
	sigset_t saved;

	if (!m)
		return result;
	timers_lock(&saved);
	timer = timer_find(kind, number);
	if (timer) {
		timer_store(m, timer, &before);
		result = timer_set(m, timer, is_absolute, in);
	}
	timers_unlock(&saved);
	if (!result && out)
		*out = before;
	return result;
}

int timers_get(enum timer_kind kind, intptr_t number, struct itimerspec *out)
{
	struct machine *m = machine();
	struct timer *timer;
	sigset_t saved;

	if (!m)
		return TIMER_OF_HOST;
	timers_lock(&saved);
	timer = timer_find(kind, number);
	if (timer)
		timer_store(m, timer, out);
	timers_unlock(&saved);
	return timer ? 0 : TIMER_OF_HOST;
}
