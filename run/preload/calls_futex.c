/* SPDX-License-Identifier: MIT OR Apache-2.0 */
/* calls_futex.c - timed waits of a futex, which a program makes by syscall(2). */
#define _GNU_SOURCE
#include "calls_system.h"
#include "calls_wait.h"

#include <linux/futex.h>
#include <sys/syscall.h>

/* Waits for a slice. Before Linux 5.14 the time for a lock is the host's REALTIME. */
static long wait_slice_once(struct wait *wait, const long *a, long operation,
			    long bits)
{
	struct timespec until = wait_slice_end(wait);
	long result = host_call(SYS_futex, a[0], operation, a[2], (long)&until,
				a[4], bits);

	if (result != -ENOSYS || (operation & FUTEX_CMD_MASK) != FUTEX_LOCK_PI2)
		return result;
	until = span_of(wait_slice(wait) + host_nanos(CLOCK_REALTIME));
	operation = FUTEX_LOCK_PI | (operation & FUTEX_PRIVATE_FLAG);
	return host_call(SYS_futex, a[0], operation, a[2], (long)&until, a[4],
			 bits);
}

/* A wait whose time is a span of MONOTONIC (FUTEX_WAIT), or a time of MONOTONIC
 * or REALTIME. */
static long wait_until(struct machine *m, const long *a, int clock,
		       long operation, bool is_span)
{
	long bits = operation == FUTEX_WAIT_BITSET && is_span
			    ? (long)FUTEX_BITSET_MATCH_ANY
			    : a[5];
	struct timespec time = *(const struct timespec *)a[3];
	struct wait wait;
	long result;

	if (is_bad(&time) || time.tv_sec < 0 ||
	    (is_span && !machine_after(m, CLOCK_MONOTONIC, &time, &time)))
		return refuse(EINVAL);
	operation |= a[1] & FUTEX_PRIVATE_FLAG;
	wait_begin(&wait, m, clock, &time);
	wait_unmasked(&wait, -ETIMEDOUT);
	do {
		result = wait_slice_once(&wait, a, operation, bits);
	} while (result == -ETIMEDOUT && !wait.is_reached);
	wait_end(&wait);
	return result_of(result);
}

/* Returns whether an operation has one clock, so that the kernel refuses it with
 * FUTEX_CLOCK_REALTIME (do_futex). From Linux 4.5 to 5.12, such a FUTEX_WAIT is over at
 * once. */
static bool has_own_clock(long operation)
{
	return operation == FUTEX_WAIT || operation == FUTEX_LOCK_PI;
}

long make_futex(const long *a)
{
	struct machine *m = machine();
	bool is_real = a[1] & FUTEX_CLOCK_REALTIME;
	int clock = is_real ? CLOCK_REALTIME : CLOCK_MONOTONIC;
	long command = a[1] & FUTEX_CMD_MASK;

	if (!a[3] || (is_real && has_own_clock(command)))
		return make_host(SYS_futex, a);
	switch (command) {
	case FUTEX_WAIT:
		return wait_until(m, a, CLOCK_MONOTONIC, FUTEX_WAIT_BITSET,
				  true);
	case FUTEX_WAIT_BITSET:
		return wait_until(m, a, clock, FUTEX_WAIT_BITSET, false);
	case FUTEX_LOCK_PI: /* its time is one of REALTIME */
		return wait_until(m, a, CLOCK_REALTIME, FUTEX_LOCK_PI2, false);
	case FUTEX_LOCK_PI2:
		return wait_until(m, a, clock, FUTEX_LOCK_PI2, false);
	case FUTEX_WAIT_REQUEUE_PI:
		note_host(m, HOST_FUTEX);
		/* fallthrough */
	default:
		return make_host(SYS_futex, a);
	}
}

/* A wait for several futexes, until a time of the clock a[4]. */
long make_futex_waitv(const long *a)
{
	const struct timespec *time = (const struct timespec *)a[3];
	struct timespec until;
	struct wait wait;
	long result;

	if (!time)
		return make_host(SYS_futex_waitv, a);
	if (is_bad(time) || time->tv_sec < 0 ||
	    (a[4] != CLOCK_REALTIME && a[4] != CLOCK_MONOTONIC))
		return refuse(EINVAL);
	wait_begin(&wait, machine(), (int)a[4], time);
	wait_unmasked(&wait, -ETIMEDOUT);
	do {
		until = wait_slice_end(&wait);
		result = host_call(SYS_futex_waitv, a[0], a[1], a[2],
				   (long)&until, CLOCK_MONOTONIC, 0);
	} while (result == -ETIMEDOUT && !wait.is_reached);
	wait_end(&wait);
	return result_of(result);
}
