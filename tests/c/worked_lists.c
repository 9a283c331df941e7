/* SPDX-License-Identifier: MIT OR Apache-2.0 */
/* Converts lists of stamps. */
#include "worked_rows.h"

enum { ROOM = 5, OLD = 7, OLD_DONE = 9 };

/* Stamps with the room for their times, and what a conversion of them gives. */
struct list {
	bool is_wide;
	uint32_t clock;
	size_t room, count;
	uint64_t stamps[ROOM];
	uint32_t code;
	size_t done;
	uint64_t out[ROOM];
};

static const struct list lists[] = {
	/* up to the first stamp that is refused */
	{ false, TKC_CLOCK_MONOTONIC, 5, 4, { 9000, 9100, 4294967296, 9200 },
	  TKC_INVALID, 2, { 7000, 7100, OLD, OLD, OLD } },
	{ true, TKC_CLOCK_MONOTONIC, 5, 2, { 1, 225563049317 },
	  TKC_RANGE, 1, { 4194304, OLD, OLD, OLD, OLD } },
	/* all of them */
	{ false, TKC_CLOCK_MONOTONIC_RAW, 5, 3, { 9300, 9300, 9300 },
	  TKC_OK, 3, { 7300, 7300, 7300, OLD, OLD } },
	{ false, TKC_CLOCK_MONOTONIC, 2, 0, { 0 },
	  TKC_OK, 0, { OLD, OLD, OLD, OLD, OLD } },
	/* none */
	{ false, TKC_CLOCK_MONOTONIC, 2, 3, { 9000, 9100, 9200 },
	  TKC_BAD_ROOM, OLD_DONE, { OLD, OLD, OLD, OLD, OLD } },
	{ false, 2, 2, 3, { 9000, 9100, 9200 },
	  TKC_BAD_CLOCK, OLD_DONE, { OLD, OLD, OLD, OLD, OLD } },
};

static void try_list(const struct list *row)
{
	struct tkc_snapshot snapshot =
		snapshot_of(row->is_wide ? opened_wide() : commanded());
	uint64_t out[ROOM] = { OLD, OLD, OLD, OLD, OLD };
	size_t done = OLD_DONE;

	check(tkc_snapshot_convert(out, row->room, &done, &snapshot, row->clock,
				   row->stamps, row->count) == row->code);
	check(done == row->done);
	check(!memcmp(out, row->out, sizeof(out)));
}

void try_lists(void)
{
	try_each(lists, try_list);
}
