/* SPDX-License-Identifier: MIT OR Apache-2.0 */
/* reads.c - how a thread reads a clock. */
#define _GNU_SOURCE
#include "machine.h"

#include "counter.h"
#include "kept.h"
#include "read_steps.h"
#include "rows.h"
#include "saved_words.h"

#include <sched.h>

enum {
	READS_IN_COUNT = 256, /* a thread's reads that are counted at once */
	BEGIN_TRIES = 100,    /* to let a second begin */
	BEGIN_NAP_NANOS = 200000,
};

/* Waits for a writer that is inside. */
SELDOM static void wait_writer(struct machine *machine, unsigned int *turns)
{
	if (++*turns % 256)
		__builtin_ia32_pause();
	else if (*turns % 4096)
		sched_yield();
	else
		machine_try_recover(machine);
}

static _Thread_local struct kept own_kept = { .sequence = NO_SEQUENCE };
static _Thread_local volatile sig_atomic_t is_kept_busy;
static _Thread_local uint64_t own_reads;

/*
 * Lets the clocks begin the next second of REALTIME, with its rate, before a
 * time in it is read: by the old rate, it might be after a time that is read
 * later. A process of another user waits until tkrun does it. Returns whether
 * to look again.
 */
SELDOM static bool begin_second(struct machine *machine, unsigned int *tries)
{
	if (++*tries > BEGIN_TRIES)
		return false;
	if (machine->control)
		return !machine_command(machine, TKC_CMD_UPDATE, 0, 0);
	host_nap(BEGIN_NAP_NANOS);
	return true;
}

static inline bool is_after_second(const struct machine *machine,
				   const struct kept *kept, uint64_t reading)
{
	return kept->has_next &&
	       is_past(machine->shared, reading, kept->next);
}

/* Loads what a snapshot is made of. */
static inline void load_copy(const struct shared_page *shared,
			     uint64_t sequence, uint64_t *words,
			     struct kept *kept)
{
	const struct next_second *next = &shared->seconds[sequence / 2 % 2];

	tkc_words_load(shared->page.copies[sequence / 2 % 2], words,
		       TKC_LATCH_WORDS);
	kept->sequence = NO_SEQUENCE;
	kept->next = atomic_load_explicit(&next->reading, memory_order_relaxed);
	kept->has_next =
		atomic_load_explicit(&next->is_known, memory_order_relaxed);
	kept->calls = atomic_load_explicit(&next->calls, memory_order_relaxed);
}

/* tkc_page_look, with a snapshot that is made only after a command. */
static inline enum tkc_code look(struct machine *machine, struct kept *kept,
				 uint64_t *reading)
{
	struct shared_page *shared = machine->shared;
	const struct tkc_page *page = &shared->page;
	uint64_t words[TKC_LATCH_WORDS], sequence;
	unsigned int turns = 0, tries = 0;
	enum tkc_code code = TKC_OK;

	for (;;) {
		sequence = atomic_load_explicit(&page->sequence,
						memory_order_acquire);
		if (sequence % 2) {
			wait_writer(machine, &turns);
			continue;
		}
		if (sequence != kept->sequence)
			load_copy(shared, sequence, words, kept);
		*reading = machine_early_reading(shared);
		if (tkc_page_moved(after(&page->sequence, *reading), sequence))
			continue;
		if (sequence != kept->sequence)
			code = keep(kept, sequence, words);
		if (code || !is_after_second(machine, kept, *reading) ||
		    !begin_second(machine, &tries))
			return code;
	}
}

/* Makes the snapshot that is kept the latest one. */
SELDOM static enum tkc_code renew(struct machine *machine, struct kept *kept)
{
	uint64_t reading;

	return look(machine, kept, &reading);
}

static void record_read(struct machine *machine, uint32_t clock,
			enum tkc_code code, const struct kept *kept,
			uint64_t reading, const struct tkc_time *time,
			enum read_call call)
{
	struct record_row row = { .kind = ROW_READ + clock,
				  .code = code,
				  .calls = kept->calls,
				  .reading = reading };
	struct rows *rows = &machine->control->rows;

	if ((code != TKC_OK && code != TKC_RANGE) ||
	    atomic_fetch_add_explicit(&rows->reads, 1, memory_order_relaxed) >=
		    rows->reads_most)
		return;
	if (!code) {
		row.number = time->sec;
		row.nsec = time->nsec;
	}
	rows_add_read(machine, &row, call);
}

/* Counts a read, and returns whether note_read looks at it. */
static inline bool count_read(struct machine *machine)
{
	struct control *control = machine->control;

	if (!control)
		return false;
	if (++own_reads % READS_IN_COUNT == 0) {
		atomic_fetch_add_explicit(&control->reads, READS_IN_COUNT,
					  memory_order_relaxed);
		machine_polled(machine, READS_IN_COUNT);
	}
	return control->rows.looks_every && own_reads % control->rows.looks_every == 0;
}

/* Returns the reading since which a coarse clock has its time. In a script it lets no
 * second begin. */
SELDOM static uint64_t reading_of(const struct kept *kept)
{
	uint64_t words[TKC_WORDS];

	tkc_snapshot_words(words, &kept->snapshot);
	return words[SAVED_LAST];
}

/* Moves the counter by the cost of a read. While the thread doesn't wait, tkrun doesn't update the
 * clocks, so the thread does: a coarse clock moves only by updates, and a narrow counter must not
 * wrap twice. */
SELDOM static void move_by_read(struct machine *machine, const struct kept *kept)
{
	struct shared_page *shared = machine->shared;
	uint64_t reading;

	atomic_fetch_add(&shared->cycles, shared->read_cost);
	reading = machine_reading(shared);
	if ((double)((reading - reading_of(kept)) & shared->mask) * shared->nanos_per_cycle >=
		    (double)shared->update_nanos &&
	    !tkc_snapshot_asleep(&kept->snapshot))
		machine_command(machine, TKC_CMD_UPDATE, 0, 0);
}

/* Records a read if it is the thread's next one to be recorded, lets it cost something, and counts
 * it for the steps that come after reads. */
SELDOM static void note_read(struct machine *machine, uint32_t clock, enum tkc_code code,
			     const struct kept *kept, uint64_t reading,
			     const struct tkc_time *time, enum read_call call)
{
	uint64_t every = machine->control->rows.every;

	if (every && own_reads % every == 0)
		record_read(machine, clock, code, kept, reading, time, call);
	if (machine->shared->read_cost)
		move_by_read(machine, kept);
	if (machine->control->read_steps.count && (code == TKC_OK || code == TKC_RANGE))
		read_steps_count(machine);
}

/* Reads a coarse clock, which needs no reading of the counter. */
static enum tkc_code read_coarse(struct machine *machine, struct kept *kept,
				 uint32_t clock, struct tkc_time *out,
				 enum read_call call)
{
	const struct coarse *coarse = coarse_of(kept, clock);
	enum tkc_code code;

	if (atomic_load_explicit(&machine->shared->page.sequence,
				 memory_order_acquire) != kept->sequence) {
		code = renew(machine, kept);
		if (code)
			return code;
	}
	*out = coarse->time;
	if (count_read(machine))
		note_read(machine, clock, coarse->code, kept, reading_of(kept), out,
			  call);
	return coarse->code;
}

static enum tkc_code read_fine(struct machine *machine, struct kept *kept,
			       uint32_t clock, struct tkc_time *out,
			       enum read_call call)
{
	uint64_t reading;
	enum tkc_code code = look(machine, kept, &reading);

	if (code)
		return code;
	code = get_kept(kept, clock, reading, out);
	if (count_read(machine))
		note_read(machine, clock, code, kept, reading, out, call);
	return code;
}

static inline enum tkc_code read_kept(struct machine *machine,
				      struct kept *kept, uint32_t clock,
				      struct tkc_time *out, enum read_call call)
{
	if (clock == TKC_CLOCK_REALTIME_COARSE ||
	    clock == TKC_CLOCK_MONOTONIC_COARSE)
		return read_coarse(machine, kept, clock, out, call);
	return read_fine(machine, kept, clock, out, call);
}

/* Reads in a signal handler that interrupted a read of its thread. */
SELDOM static enum tkc_code read_in_handler(struct machine *machine,
					    uint32_t clock,
					    struct tkc_time *out,
					    enum read_call call)
{
	struct kept kept = { .sequence = NO_SEQUENCE };

	return read_kept(machine, &kept, clock, out, call);
}

enum tkc_code machine_read(struct machine *machine, uint32_t clock,
			   struct tkc_time *out, enum read_call call)
{
	enum tkc_code code;

	if (is_kept_busy)
		return read_in_handler(machine, clock, out, call);
	is_kept_busy = 1;
	atomic_signal_fence(memory_order_seq_cst);
	code = read_kept(machine, &own_kept, clock, out, call);
	atomic_signal_fence(memory_order_seq_cst);
	is_kept_busy = 0;
	return code;
}

enum tkc_code machine_look(struct machine *machine, struct tkc_snapshot *out,
			   uint64_t *reading)
{
	struct kept kept = { .sequence = NO_SEQUENCE };
	enum tkc_code code = look(machine, &kept, reading);

	*out = kept.snapshot;
	return code;
}

void machine_turn_to(const struct machine *machine)
{
	static _Thread_local const struct machine *present;

	if (present != machine)
		own_kept.sequence = NO_SEQUENCE;
	present = machine;
}

void machine_count_rest(struct machine *machine)
{
	atomic_fetch_add(&machine->control->reads, own_reads % READS_IN_COUNT);
	own_reads = 0;
}
