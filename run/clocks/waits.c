/* SPDX-License-Identifier: MIT OR Apache-2.0 */
/* waits.c - until when a thread waits for a time of a clock. */
#define _GNU_SOURCE
#include "waiters.h"

#include <errno.h>
#include <sys/syscall.h>
#include <unistd.h>

/* The longest wait before a sleeper looks again: the rate may have changed. If the sleeper is
 * listed, tkrun wakes it at its time. */
static const uint64_t LONGEST = 10 * (uint64_t)NANOS,
		      LONGEST_LISTED = 1000000000 * (uint64_t)NANOS;

enum { DAY_SEC = 86400 };

/* Returns when a time of REALTIME would come without a leap second at the end of the day.
 * A time in a deleted second comes when that second would begin. In the day's last second,
 * no deletion is due at its end. */
static struct timespec without_leap(const struct machine *machine, int64_t now,
				    struct timespec time)
{
	int64_t tomorrow = (now / DAY_SEC + 1) * DAY_SEC;
	int32_t leap = atomic_load(&machine->shared->leap);

	if (leap < 0 && now == tomorrow - 1)
		tomorrow += DAY_SEC;
	if (leap < 0 && time.tv_sec == tomorrow - 1)
		return (struct timespec){ time.tv_sec, 0 };
	if (time.tv_sec >= tomorrow && time.tv_sec != INT64_MAX)
		time.tv_sec += leap;
	return time;
}

bool machine_after(struct machine *machine, int clock,
		   const struct timespec *span, struct timespec *out)
{
	struct timespec after = *span;
	struct tkc_time now;

	if (after.tv_sec < 0 || is_bad(&after) ||
	    machine_read(machine, (uint32_t)clock, &now, BY_WAIT))
		return false;
	after.tv_nsec += now.nsec;
	/* no clock runs as long as that */
	if (after.tv_sec > INT64_MAX - now.sec - 1)
		after.tv_sec = INT64_MAX - now.sec - 1;
	after.tv_sec += now.sec + after.tv_nsec / NANOS;
	after.tv_nsec %= NANOS;
	*out = after;
	return true;
}

struct timespec machine_until(struct machine *machine, int clock,
			      const struct timespec *time)
{
	struct timespec left = { 0 };
	struct tkc_time now;

	if (machine_read(machine, (uint32_t)clock, &now, BY_WAIT))
		return left;
	left.tv_sec = time->tv_sec - now.sec;
	left.tv_nsec = time->tv_nsec - (long)now.nsec;
	if (left.tv_nsec < 0) {
		left.tv_nsec += NANOS;
		left.tv_sec--;
	}
	if (left.tv_sec < 0)
		left = (struct timespec){ 0 };
	return left;
}

/* With a counter of sleeps, a wait ends at the first reading at which the clock is past
 * its time. On a real clock, a program that waited for a span never reads just this span,
 * and some wait again then (Condvar::wait_timeout_while of Rust). */
static struct timespec end_of(const struct machine *machine, int64_t sec,
			      uint32_t nsec)
{
	if (machine->shared->kind != COUNTER_SLEEPS || sec == INT64_MAX)
		return (struct timespec){ sec, nsec };
	nsec++;
	return (struct timespec){ sec + nsec / NANOS, nsec % NANOS };
}

uint64_t machine_cycles_left(struct machine *machine, uint32_t clock,
			     int64_t sec, uint32_t nsec)
{
	struct timespec end = end_of(machine, sec, nsec);
	uint64_t reading, then, mask = machine->shared->mask;
	struct tkc_snapshot snapshot;
	struct tkc_time now;
	enum tkc_code code;

	if (machine_look(machine, &snapshot, &reading) ||
	    tkc_snapshot_get(&now, &snapshot, clock, reading))
		return NEVER;
	if (now.sec > end.tv_sec ||
	    (now.sec == end.tv_sec && now.nsec >= end.tv_nsec))
		return 0;
	if (clock == TKC_CLOCK_REALTIME)
		end = without_leap(machine, now.sec, end);
	code = tkc_snapshot_reading(&then, &snapshot, clock, end.tv_sec,
				    (uint32_t)end.tv_nsec);
	if (code)
		return code == TKC_FURTHER ? mask / 4 : NEVER;
	then = (then - reading) & mask;
	return then > mask / 2 ? 0 : then;
}

uint64_t machine_left(struct machine *machine, uint32_t clock, int64_t sec,
		      uint32_t nsec)
{
	uint64_t left = machine_cycles_left(machine, clock, sec, nsec);
	double nanos = (double)left * machine->shared->nanos_per_cycle;

	if (!left || left == NEVER)
		return left;
	if (machine->shared->kind == COUNTER_SLEEPS || nanos > 9e18)
		return NEVER;
	return (uint64_t)nanos + 1;
}

static struct ticket enter(struct machine *machine, uint32_t clock, int64_t sec, uint32_t nsec)
{
	if (machine->shared->kind != COUNTER_SLEEPS && !waiters_are_found(machine))
		return (struct ticket){ 0 };
	return waiter_enter_for(machine, own_thread(), clock, sec, nsec);
}

/* A sleeper looks at the futex before it looks at the clocks. So if they change
 * in between, the futex doesn't let it wait. A listed sleeper is woken only when its
 * time has come: a signal that comes while it looks wouldn't interrupt it. */
int machine_sleep(struct machine *machine, uint32_t clock, int64_t sec,
		  uint32_t nsec)
{
	struct ticket ticket = enter(machine, clock, sec, nsec);
	_Atomic uint32_t *futex = ticket.waiter ? &ticket.waiter->changes
						: &machine->shared->generation;
	uint64_t most = ticket.waiter ? LONGEST_LISTED : LONGEST, left, end;
	uint32_t seen;
	int error = 0;

	while (error != EINTR) {
		seen = atomic_load(futex);
		left = machine_left(machine, clock, sec, nsec);
		if (!left)
			break;
		end = host_nanos(CLOCK_MONOTONIC) + (left < most ? left : most);
		waiter_begin_slice(&ticket, end);
		error = host_futex_wait(futex, seen, end);
	}
	waiter_leave(&ticket);
	return error == EINTR ? EINTR : 0;
}

/* A thread that polls a counter of sleeps in a loop lets it move after POLLS_MOST
 * polls, by a sleep. The sleep becomes longer the longer the loop takes, by clocks that
 * move only in these sleeps. */
enum {
	POLLS_MOST = 1000,
	SPIN_NANOS = 1000,
	SPIN_MOST_NANOS = 100000,
	SPIN_PART = 16, /* of what the loop has taken */
};

/* How a thread polls the counter. */
struct polls {
	uint64_t cycles; /* of the counter, when the thread polled last */
	uint64_t spun;	 /* ns: how long the loop has taken */
	uint32_t count;
};

/* Sleeps for some ns. It is neither cancelled nor recorded as a read. */
static void spin(struct machine *machine, uint64_t nanos)
{
	struct tkc_snapshot snapshot;
	struct tkc_time now;
	uint64_t reading;
	int state;

	if (machine_look(machine, &snapshot, &reading) ||
	    tkc_snapshot_get(&now, &snapshot, TKC_CLOCK_MONOTONIC, reading))
		return;
	nanos += now.nsec;
	pthread_setcancelstate(PTHREAD_CANCEL_DISABLE, &state);
	machine_sleep(machine, TKC_CLOCK_MONOTONIC,
		      now.sec + (int64_t)(nanos / NANOS),
		      (uint32_t)(nanos % NANOS));
	pthread_setcancelstate(state, NULL);
}

void machine_polled(struct machine *machine, uint32_t count)
{
	static _Thread_local struct polls polls;
	uint64_t cycles, span;

	if (machine->shared->kind != COUNTER_SLEEPS || !machine->control)
		return;
	cycles = atomic_load(&machine->shared->cycles);
	if (cycles != polls.cycles)
		polls = (struct polls){ .cycles = cycles };
	polls.count += count;
	if (polls.count < POLLS_MOST)
		return;
	span = polls.spun / SPIN_PART;
	span = span < SPIN_NANOS ? SPIN_NANOS : span;
	span = span > SPIN_MOST_NANOS ? SPIN_MOST_NANOS : span;
	spin(machine, span);
	polls.cycles = atomic_load(&machine->shared->cycles);
	polls.spun += span;
	polls.count = 0;
}
