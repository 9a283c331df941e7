/* SPDX-License-Identifier: MIT OR Apache-2.0 */
/* calls_wait.h - waits for something that isn't only a time. */
#ifndef CALLS_WAIT_H
#define CALLS_WAIT_H

#include "calls.h"

/*
 * A wait for something that isn't only a time, until a time of a clock. The C library
 * waits for slices of the host's time. A slice lasts until the clock reaches the time,
 * as the clocks are now. If a command, a discipline or a counter of sleeps brings the
 * time sooner, tkrun sends WAKE_SIGNAL, whose handler lets the slice end. Without the
 * signal, slices are short.
 */
struct wait {
	struct machine *machine;
	int clock;
	struct timespec time;
	struct ticket ticket;
	bool is_reached; /* the time had come before the present slice */
	bool is_masked;	 /* no signal comes between its slices */
	bool is_signalled;
	bool is_let;	 /* the signal may end the present slice */
	sigset_t mask;	 /* the blocked signals: in a slice */
	sigset_t before; /* and before the wait */
};

/* Lists a wait. */
void wait_begin(struct wait *wait, struct machine *m, int clock,
		const struct timespec *time);

/* Lists a wait for a span of MONOTONIC. Returns false if the host's call is to be made once
 * with it: it is no limit, nothing, or no span. */
bool wait_span(struct wait *wait, const struct timespec *span);

/*
 * Prepare the wait's slices. After wait_mask, all signals are blocked except in slices,
 * which get wait->mask. If a signal came between two slices, the wait wouldn't be
 * interrupted. `mask` is the caller's, or NULL.
 *
 * wait_unmasked is for a system call that takes no mask, and that returns `result` when
 * its time has come. Its first slice lasts as long as the wait, unless the clocks are set
 * back or become slower.
 */
void wait_mask(struct wait *wait, const sigset_t *mask);
void wait_unmasked(struct wait *wait, long result);

/* Ends a wait. Handlers of signals may run, which leave errno. */
void wait_end(struct wait *wait);

/* Returns the next slice: its ns, as a span, or its end on the host's MONOTONIC. A slice is
 * 0 if the time has come. The function that calls this makes the call that waits. */
uint64_t wait_slice(struct wait *wait);
struct timespec wait_next(struct wait *wait);
struct timespec wait_slice_end(struct wait *wait);

#endif
