/* SPDX-License-Identifier: MIT OR Apache-2.0 */
/* kept.h - what a thread keeps of the clocks until the next command, for reads.c. */
#ifndef KEPT_H
#define KEPT_H

#include "machine.h"

/* What a read seldom does isn't inlined, so that the rest is fast. */
#define SELDOM __attribute__((noinline, cold))

/* A coarse clock's time, which stays until the next command. */
struct coarse {
	enum tkc_code code;
	struct tkc_time time;
};

/* The sequence of no snapshot: no page has it. */
#define NO_SEQUENCE UINT64_MAX

/* A snapshot that is kept as long as the page's sequence stays, with the lines
 * of the clocks that were read. The others have no span. */
struct kept {
	uint64_t sequence, calls; /* that the clocks had accepted */
	uint64_t next; /* the reading at which the next second begins */
	bool has_next;
	struct tkc_snapshot snapshot;
	struct coarse real, monotonic;
	struct tkc_line lines[LINES];
};

/* Keeps the snapshot of the words that a sequence selected. Returns the codes of
 * tkc_page_read. */
SELDOM static enum tkc_code keep(struct kept *kept, uint64_t sequence,
				 const uint64_t *words)
{
	enum tkc_code code;

	kept->sequence = NO_SEQUENCE;
	code = tkc_words_checked(&kept->snapshot, words);
	if (code)
		return code;
	kept->real.code = tkc_snapshot_get(&kept->real.time, &kept->snapshot,
					   TKC_CLOCK_REALTIME_COARSE, 0);
	kept->monotonic.code =
		tkc_snapshot_get(&kept->monotonic.time, &kept->snapshot,
				 TKC_CLOCK_MONOTONIC_COARSE, 0);
	for (int i = 0; i < LINES; i++)
		kept->lines[i].span = 0;
	kept->sequence = sequence;
	return TKC_OK;
}

/* Returns what the kept snapshot has for a coarse clock. */
static inline const struct coarse *coarse_of(const struct kept *kept,
					     uint32_t clock)
{
	return clock == TKC_CLOCK_REALTIME_COARSE ? &kept->real
						  : &kept->monotonic;
}

/* Reads a clock where its line doesn't reach, or isn't made yet. */
SELDOM static enum tkc_code get_without_line(struct kept *kept, uint32_t clock,
					     uint64_t reading,
					     struct tkc_time *out)
{
	enum tkc_code code;

	if (clock < LINES && !kept->lines[clock].span) {
		code = tkc_snapshot_line(&kept->lines[clock], &kept->snapshot,
					 clock);
		if (code)
			return code;
	}
	return tkc_snapshot_get(out, &kept->snapshot, clock, reading);
}

/* Reads a clock that isn't a coarse one. Returns the codes of tkc_snapshot_get. */
static inline enum tkc_code get_kept(struct kept *kept, uint32_t clock,
				     uint64_t reading,
				     struct tkc_time *out)
{
	if (clock < LINES && tkc_line_get(out, &kept->lines[clock], reading))
		return TKC_OK;
	return get_without_line(kept, clock, reading, out);
}

#endif
