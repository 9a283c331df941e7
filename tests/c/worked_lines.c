/* SPDX-License-Identifier: MIT OR Apache-2.0 */
/* Makes the lines of clocks, whose numbers were computed manually. */
#include "worked_rows.h"

enum clocks { COMMANDED_CLOCKS, WIDE_CLOCKS, FINE_CLOCKS };

/* A clock at its last reading, and the cycles that its line is good for. */
struct line {
	enum clocks of;
	uint32_t clock;
	uint64_t sec, nsec;
	uint32_t mult;
	uint64_t span;
};

static const struct line lines[] = {
	/* half of the 2^32 readings, while all products fit */
	{ COMMANDED_CLOCKS, TKC_CLOCK_REALTIME, 1800000001, 5009, 16777216, 2147483648 },
	{ COMMANDED_CLOCKS, TKC_CLOCK_MONOTONIC, 0, 7000, 16777216, 2147483648 },
	{ COMMANDED_CLOCKS, TKC_CLOCK_MONOTONIC_RAW, 0, 7000, 16777216, 2147483648 },
	{ COMMANDED_CLOCKS, TKC_CLOCK_REALTIME_COARSE, 1800000001, 5009, 0, 2147483648 },
	{ COMMANDED_CLOCKS, TKC_CLOCK_MONOTONIC_COARSE, 0, 7000, 0, 2147483648 },
	{ COMMANDED_CLOCKS, TKC_CLOCK_BOOTTIME, 2, 7003, 16777216, 2147483648 },
	{ COMMANDED_CLOCKS, TKC_CLOCK_TAI, 1800000038, 5009, 16777216, 2147483648 },
	/* up to the clock's limit, at 4,194,304 ns a cycle */
	{ WIDE_CLOCKS, TKC_CLOCK_MONOTONIC, 0, 0, 4194304, 225563049317 },
	{ WIDE_CLOCKS, TKC_CLOCK_BOOTTIME, 0, 0, 4194304, 2199023255349 },
	{ WIDE_CLOCKS, TKC_CLOCK_MONOTONIC_RAW, 0, 0, 4194304, 2199023255349 },
	{ WIDE_CLOCKS, TKC_CLOCK_REALTIME, 1700000000, 0, 4194304, 1793711670876 },
	/* as long as 5 * 2^31 plus the product fits in 64 bits, at 2^31 units a cycle */
	{ FINE_CLOCKS, TKC_CLOCK_MONOTONIC, 0, 5, UINT32_C(1) << 31, 8589934587 },
	{ FINE_CLOCKS, TKC_CLOCK_MONOTONIC_COARSE, 0, 5, 0, UINT64_C(1) << 63 },
};

struct tkc_clock opened_fine(void)
{
	struct tkc_counter counter;
	struct tkc_clock clock;

	check(!tkc_counter_new(&counter, 64, UINT32_C(1) << 31, 31));
	check(!tkc_clock_open(&clock, &counter, 0, 1700000000, 0));
	check(!tkc_clock_update(&clock, 5));
	return clock;
}

static struct tkc_clock clocks_of(enum clocks of)
{
	switch (of) {
	case COMMANDED_CLOCKS: return commanded();
	case WIDE_CLOCKS: return opened_wide();
	default: return opened_fine();
	}
}

static void try_line(const struct line *row)
{
	struct tkc_snapshot snapshot = snapshot_of(clocks_of(row->of));
	uint32_t shift = row->of == COMMANDED_CLOCKS ? 24 : row->of == WIDE_CLOCKS ? 0 : 31;
	uint64_t last = row->of == COMMANDED_CLOCKS ? 9000 : row->of == WIDE_CLOCKS ? 0 : 5;
	struct tkc_line line;

	make_old(&line);
	check(!tkc_snapshot_line(&line, &snapshot, row->clock));
	check(line.last == last && line.shift == shift);
	check(line.mask == (row->of == COMMANDED_CLOCKS ? UINT32_MAX : UINT64_MAX));
	check(line.sec == row->sec && line.frac == row->nsec << shift);
	check(line.mult == row->mult && line.span == row->span);
}

static void try_unknown(const uint32_t *clock)
{
	struct tkc_snapshot snapshot = snapshot_of(commanded());
	struct tkc_line line;

	make_old(&line);
	check(tkc_snapshot_line(&line, &snapshot, *clock) == TKC_BAD_CLOCK);
	check(is_old(&line));
}

/* Reads REALTIME of `commanded` by its line: at, after and behind the last command, up to the last
 * reading that the line is good for, and above the mask. */
static void read_by_line(void)
{
	struct tkc_snapshot snapshot = snapshot_of(commanded());
	struct tkc_time time;
	struct tkc_line line;
	uint64_t nanos;

	check(!tkc_snapshot_line(&line, &snapshot, TKC_CLOCK_REALTIME));
	make_old(&time);
	check(tkc_line_get(&time, &line, 9100));
	check(time.sec == 1800000001 && time.nsec == 5109 && !time.padding);
	check(tkc_line_ns(&nanos, &line, 9100) && nanos == 1800000001000005109);
	check(tkc_line_get(&time, &line, 9000 + UINT64_C(2147483647)));
	check(time.sec == 1800000003 && time.nsec == 147488656);
	check(tkc_line_ns(&nanos, &line, 1000004000) && nanos == 1800000002000000009);
	make_old(&time);
	make_old(&nanos);
	check(!tkc_line_get(&time, &line, 9000 + UINT64_C(2147483648)));
	check(!tkc_line_get(&time, &line, 8999));
	check(!tkc_line_get(&time, &line, 9100 + (UINT64_C(1) << 32)));
	check(!tkc_line_ns(&nanos, &line, 9000 + UINT64_C(2147483648)));
	check(!tkc_line_ns(&nanos, &line, 8999));
	check(!tkc_line_ns(&nanos, &line, 9100 + (UINT64_C(1) << 32)));
	check(is_old(&time) && is_old(&nanos));
}

void try_lines(void)
{
	static const uint32_t unknown[] = { 2, 3, 8, 10, 12, UINT32_MAX };

	try_each(lines, try_line);
	try_each(unknown, try_unknown);
	read_by_line();
}
