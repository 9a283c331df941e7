/* SPDX-License-Identifier: MIT OR Apache-2.0 */
/* Reads clocks at a reading. */
#include "worked_rows.h"

struct read {
	uint32_t clock;
	int64_t sec;
	uint32_t nsec;
};

/* A read of the clocks with a cycle of a nanosecond, or of the wide ones. */
struct refused_read {
	bool is_wide;
	uint32_t clock;
	uint64_t reading;
	uint32_t code;
};

/* The clocks of `commanded` at the reading 9,100. */
static const struct read reads[] = {
	{ TKC_CLOCK_REALTIME, 1800000001, 5109 },
	{ TKC_CLOCK_MONOTONIC, 0, 7100 },
	{ TKC_CLOCK_MONOTONIC_RAW, 0, 7100 },
	{ TKC_CLOCK_REALTIME_COARSE, 1800000001, 5009 },
	{ TKC_CLOCK_MONOTONIC_COARSE, 0, 7000 },
	{ TKC_CLOCK_BOOTTIME, 2, 7103 },
	{ TKC_CLOCK_TAI, 1800000038, 5109 },
};

static const struct refused_read refused_reads[] = {
	{ false, 2, 9100, TKC_BAD_CLOCK },
	{ false, 3, 9100, TKC_BAD_CLOCK },
	{ false, 8, 9100, TKC_BAD_CLOCK },
	{ false, 10, 9100, TKC_BAD_CLOCK },
	{ false, 12, 9100, TKC_BAD_CLOCK },
	{ false, UINT32_MAX, 9100, TKC_BAD_CLOCK },
	{ false, TKC_CLOCK_MONOTONIC, 4294967296, TKC_INVALID },
	{ false, TKC_CLOCK_MONOTONIC_COARSE, 4294967296, TKC_INVALID },
	{ true, TKC_CLOCK_MONOTONIC, 225563049317, TKC_RANGE },
	{ true, TKC_CLOCK_MONOTONIC, INT64_MAX, TKC_RANGE },
	{ true, TKC_CLOCK_MONOTONIC_RAW, INT64_MAX, TKC_RANGE },
};

static void try_read(const struct read *row)
{
	struct tkc_snapshot snapshot = snapshot_of(commanded());
	struct tkc_time time = read_at(&snapshot, row->clock, 9100);

	check(time.sec == row->sec && time.nsec == row->nsec);
}

static void try_refused_read(const struct refused_read *row)
{
	struct tkc_snapshot snapshot =
		snapshot_of(row->is_wide ? opened_wide() : commanded());
	struct tkc_time out;

	make_old(&out);
	check(tkc_snapshot_get(&out, &snapshot, row->clock, row->reading) ==
	      row->code);
	check(is_old(&out));
}

void try_reads(void)
{
	try_each(reads, try_read);
	try_each(refused_reads, try_refused_read);
}
