/* SPDX-License-Identifier: GPL-2.0 */
/*
 * Clocks for a kernel: commands under a lock, and snapshots for readers in any
 * context, as in kernel/time/timekeeping.c. clocks.c and this file need only
 * the kernel's headers and tkcore.h.
 */
#ifndef CLOCKS_H
#define CLOCKS_H

#include <linux/seqlock.h>
#include <linux/spinlock.h>
#include <tkcore.h>

/* A command, and its result. */
struct command {
	u32 command; /* an argument of tkc_clock_apply, as number and nsec are */
	s64 number;
	u32 nsec;
	u64 reading; /* when it was applied */
	u32 code;
	u64 front; /* the commands accepted so far, if it was accepted */
	struct tkc_time time; /* MONOTONIC at the reading, if it was accepted */
};

/* What readers need: a snapshot, and the call that reads its counter, ordered
 * after and before other loads (struct tk_read_base). */
struct base {
	struct tkc_snapshot snapshot;
	u64 (*read_counter)(void);
};

struct clocks {
	/*
	 * The caller sets these before clocks_open(). `notify` is called with
	 * the lock held after each command, as pvclock_gtod_chain is. It may be
	 * NULL.
	 */
	struct tkc_counter counter;
	u64 (*read_counter)(void); /* as in struct base */
	void (*notify)(const struct command *command);

	raw_spinlock_t lock; /* serializes commands; timekeeper_lock */
	struct tkc_clock clock;
	u64 front; /* the commands accepted so far */
	seqcount_raw_spinlock_t seq; /* protects the snapshot and read_counter,
					as tk_core.seq does */
	struct tkc_snapshot snapshot;
	seqcount_latch_t latch; /* selects a copy; struct tk_fast */
	struct base copies[2];
};

/* Opens the clocks with REALTIME at the reading. */
u32 clocks_open(struct clocks *clocks, u64 reading,
		const struct tkc_time *time);

/*
 * Applies a command at the counter's reading, and stores the reading and the
 * result in it. It may be called in any context except an NMI.
 */
void clocks_command(struct clocks *clocks, struct command *command);

/*
 * Lets the clocks go on over another counter, which `read_counter` reads
 * (change_clocksource). Returns the code of tkc_clock_change_counter(). It may
 * be called in any context except an NMI, and doesn't call `notify`.
 */
u32 clocks_change_counter(struct clocks *clocks,
			  const struct tkc_counter *counter,
			  u64 (*read_counter)(void));

/*
 * Stores a snapshot and a reading that was taken while the snapshot was the
 * latest, so MONOTONIC never goes back. It may be called in any context except
 * an NMI.
 */
void clocks_look(struct clocks *clocks, struct tkc_snapshot *snapshot,
		 u64 *reading);

/*
 * Stores a snapshot and a reading in any context, as ktime_get_mono_fast_ns
 * does: the snapshot may be the one before the latest.
 */
void clocks_look_fast(struct clocks *clocks, struct tkc_snapshot *snapshot,
		      u64 *reading);

#endif
