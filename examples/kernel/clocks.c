// SPDX-License-Identifier: GPL-2.0
/*
 * Clocks for a kernel, over the library of tkcore.h. Copy this file and
 * clocks.h into a module or a kernel; minimal/ is a module that links the
 * library.
 *
 *  - clocks_open() opens the clocks. The caller chooses the counter.
 *  - clocks_command() applies a command. Apply an update at least once in each
 *    half of the counter's range, for example from a timer.
 *  - clocks_look() stores a snapshot and a reading of the counter, from which
 *    tkc_snapshot_get() computes any clock's time. clocks_look_fast() does so
 *    in an NMI too.
 *
 * MONOTONIC doesn't go back for callers of clocks_look(), on any processor,
 * because a command reads the counter while the sequence is odd, and a reader
 * reads it while the sequence is even and doesn't change.
 */
#include "clocks.h"

/* Writes copy `which` of the snapshot. Its readers use the other one meanwhile. */
static void write_copy(struct clocks *clocks, int which)
{
	const u64 *from = clocks->snapshot.tkc_private;
	struct base *copy = &clocks->copies[which];
	u64 *to = copy->snapshot.tkc_private;

	WRITE_ONCE(copy->read_counter, clocks->read_counter);
	for (size_t i = 0; i < ARRAY_SIZE(clocks->snapshot.tkc_private); i++)
		WRITE_ONCE(to[i], from[i]);
}

/* Readers use copy 1 while copy 0 is written, and copy 0 after that. */
static void write_copies(struct clocks *clocks)
{
	raw_write_seqcount_latch(&clocks->latch);
	write_copy(clocks, 0);
	raw_write_seqcount_latch(&clocks->latch);
	write_copy(clocks, 1);
}

u32 clocks_open(struct clocks *clocks, u64 reading, const struct tkc_time *time)
{
	u32 code;

	raw_spin_lock_init(&clocks->lock);
	seqcount_raw_spinlock_init(&clocks->seq, &clocks->lock);
	seqcount_latch_init(&clocks->latch);
	clocks->front = 0;
	code = tkc_clock_open(&clocks->clock, &clocks->counter, reading,
			      time->sec, time->nsec);
	if (code)
		return code;
	tkc_clock_snapshot(&clocks->snapshot, &clocks->clock);
	write_copies(clocks);
	return TKC_OK;
}

/* The caller holds the lock and has begun to write the snapshot. */
static void apply(struct clocks *clocks, struct command *command)
{
	command->code = tkc_clock_apply(&clocks->clock, command->reading,
					command->command, command->number,
					command->nsec);
	if (command->code)
		return;
	tkc_clock_snapshot(&clocks->snapshot, &clocks->clock);
	command->front = ++clocks->front;
	command->code = tkc_snapshot_get(&command->time, &clocks->snapshot,
					 TKC_CLOCK_MONOTONIC, command->reading);
}

void clocks_command(struct clocks *clocks, struct command *command)
{
	unsigned long flags;

	raw_spin_lock_irqsave(&clocks->lock, flags);
	write_seqcount_begin(&clocks->seq);
	/*
	 * All processors must see the odd sequence before the counter is read.
	 * On x86 write_seqcount_begin() orders only the compiler: rdtsc may run
	 * while the odd sequence is still in the store buffer. A reader would
	 * then accept the old snapshot with a reading after this one, and
	 * MONOTONIC would go back.
	 */
	smp_mb();
	command->reading = clocks->read_counter();
	apply(clocks, command);
	write_seqcount_end(&clocks->seq);
	write_copies(clocks);
	if (clocks->notify)
		clocks->notify(command);
	raw_spin_unlock_irqrestore(&clocks->lock, flags);
}

/* The caller holds the lock and has begun to write the snapshot. */
static u32 change(struct clocks *clocks, const struct tkc_counter *counter,
		  u64 (*read_counter)(void))
{
	u64 reading = clocks->read_counter();
	u32 code = tkc_clock_change_counter(&clocks->clock, reading, counter,
					    read_counter());

	if (code)
		return code;
	tkc_clock_snapshot(&clocks->snapshot, &clocks->clock);
	WRITE_ONCE(clocks->read_counter, read_counter);
	clocks->counter = *counter;
	clocks->front++;
	return TKC_OK;
}

u32 clocks_change_counter(struct clocks *clocks,
			  const struct tkc_counter *counter,
			  u64 (*read_counter)(void))
{
	unsigned long flags;
	u32 code;

	raw_spin_lock_irqsave(&clocks->lock, flags);
	write_seqcount_begin(&clocks->seq);
	smp_mb(); /* as in clocks_command() */
	code = change(clocks, counter, read_counter);
	write_seqcount_end(&clocks->seq);
	write_copies(clocks);
	raw_spin_unlock_irqrestore(&clocks->lock, flags);
	return code;
}

void clocks_look(struct clocks *clocks, struct tkc_snapshot *snapshot,
		 u64 *reading)
{
	unsigned int seq;

	do {
		seq = read_seqcount_begin(&clocks->seq);
		*snapshot = clocks->snapshot;
		*reading = READ_ONCE(clocks->read_counter)();
	} while (read_seqcount_retry(&clocks->seq, seq));
}

void clocks_look_fast(struct clocks *clocks, struct tkc_snapshot *snapshot,
		      u64 *reading)
{
	const struct base *copy;
	unsigned int seq;

	do {
		seq = raw_read_seqcount_latch(&clocks->latch);
		copy = &clocks->copies[seq & 1];
		*snapshot = copy->snapshot;
		*reading = READ_ONCE(copy->read_counter)();
	} while (read_seqcount_latch_retry(&clocks->latch, seq));
}
