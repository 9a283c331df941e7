/* SPDX-License-Identifier: MIT OR Apache-2.0 */
/* calls_wait.c - waits for something that isn't only a time. */
#define _GNU_SOURCE
#include "calls_wait.h"

#include "wake.h"

enum {
	SLICE_NANOS = 100000000, /* without the signal */
	SHORT_NANOS = 1000000,	 /* the same with a counter of sleeps */
};

/* The longest slice of a wait that the signal ends, if no signal comes between slices, and if the
 * first slice is to be the only one. */
static const uint64_t LONG_NANOS = 1000 * (uint64_t)NANOS,
		      WHOLE_NANOS = 1000000000 * (uint64_t)NANOS;

void wait_begin(struct wait *wait, struct machine *m, int clock,
		const struct timespec *time)
{
	*wait = (struct wait){ .machine = m, .clock = clock, .time = *time };
	if (m->shared->kind == COUNTER_SLEEPS || waiters_are_found(m))
		wait->ticket = waiter_enter_for(m, own_thread(),
						(uint32_t)clock, time->tv_sec,
						(uint32_t)time->tv_nsec);
}

bool wait_span(struct wait *wait, const struct timespec *span)
{
	struct machine *m = machine();
	struct timespec until;

	if (!m || !span)
		return false;
	if (!span->tv_sec && !span->tv_nsec) {
		machine_polled(m, 1);
		return false;
	}
	if (!machine_after(m, CLOCK_MONOTONIC, span, &until))
		return false;
	wait_begin(wait, m, CLOCK_MONOTONIC, &until);
	return true;
}

/* Lets the signal end the wait's slices. `mask` is what the program blocks meanwhile. */
static void let_signal(struct wait *wait, long result, const sigset_t *mask)
{
	bool is_blocked = sigismember(mask, WAKE_SIGNAL) == 1;

	wait->is_signalled = wake_begin(wait->machine, &wait->ticket, result,
					is_blocked);
	wait->is_let = wait->is_signalled;
}

void wait_mask(struct wait *wait, const sigset_t *mask)
{
	sigset_t all;

	wait->is_masked = true;
	sigfillset(&all);
	pthread_sigmask(SIG_BLOCK, &all, &wait->before);
	wait->mask = mask ? *mask : wait->before;
	let_signal(wait, 0, &wait->mask);
	if (wait->is_let)
		sigdelset(&wait->mask, WAKE_SIGNAL);
}

void wait_unmasked(struct wait *wait, long result)
{
	sigset_t wake;

	pthread_sigmask(SIG_BLOCK, NULL, &wait->before);
	let_signal(wait, result, &wait->before);
	if (!wait->is_let || sigismember(&wait->before, WAKE_SIGNAL) != 1)
		return;
	sigemptyset(&wake);
	sigaddset(&wake, WAKE_SIGNAL);
	pthread_sigmask(SIG_UNBLOCK, &wake, NULL);
}

/* After another process's signal, none may end a slice: that one stays pending. */
static void note_others(struct wait *wait)
{
	if (!wait->is_let || wake_is_let())
		return;
	wait->is_let = false;
	wake_let_none(&wait->ticket);
	if (wait->is_masked)
		sigaddset(&wait->mask, WAKE_SIGNAL);
}

void wait_end(struct wait *wait)
{
	int error = errno;

	if (wait->is_signalled)
		wake_end(&wait->ticket);
	waiter_leave(&wait->ticket);
	if (wait->is_masked || (wait->is_signalled &&
				sigismember(&wait->before, WAKE_SIGNAL)))
		pthread_sigmask(SIG_SETMASK, &wait->before, NULL);
	errno = error;
}

/* Returns the longest slice. */
static uint64_t most_nanos(const struct wait *wait)
{
	bool is_sleeps = wait->machine->shared->kind == COUNTER_SLEEPS;

	if (!wait->is_let)
		return is_sleeps ? SHORT_NANOS : SLICE_NANOS;
	return wait->is_masked ? LONG_NANOS : WHOLE_NANOS;
}

uint64_t wait_slice(struct wait *wait)
{
	uint64_t most, left;

	if (wait->is_signalled) {
		wake_place();
		note_others(wait);
	}
	most = most_nanos(wait);
	left = machine_left(wait->machine, (uint32_t)wait->clock,
			    wait->time.tv_sec, (uint32_t)wait->time.tv_nsec);
	wait->is_reached = !left;
	left = left < most ? left : most;
	waiter_begin_slice(&wait->ticket, host_nanos(CLOCK_MONOTONIC) + left);
	return left;
}

struct timespec wait_slice_end(struct wait *wait)
{
	return span_of(wait_slice(wait) + host_nanos(CLOCK_MONOTONIC));
}

struct timespec wait_next(struct wait *wait)
{
	return span_of(wait_slice(wait));
}
