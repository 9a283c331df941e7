/* SPDX-License-Identifier: MIT OR Apache-2.0 */
/* Finds the readings at which clocks reach a time. */
#include "worked_rows.h"

enum { OLD = 7 };

/* A clock is read, and the time that it gives is reached first at `first`. */
struct read_time {
	uint32_t clock;
	uint64_t reading, first;
};

struct reached_time {
	uint32_t clock;
	int64_t sec;
	uint32_t nsec;
	uint64_t first;
};

/* Clocks that don't reach a time. */
enum clocks { COMMANDED_CLOCKS, WIDE_CLOCKS, ASLEEP_CLOCKS };

struct missed_time {
	enum clocks of;
	uint32_t clock;
	int64_t sec;
	uint32_t nsec, code;
};

static const struct read_time read_times[] = {
	{ TKC_CLOCK_REALTIME, 9100, 9100 },
	{ TKC_CLOCK_MONOTONIC, 9100, 9100 },
	{ TKC_CLOCK_MONOTONIC_RAW, 9100, 9100 },
	{ TKC_CLOCK_BOOTTIME, 9100, 9100 },
	{ TKC_CLOCK_TAI, 9100, 9100 },
	{ TKC_CLOCK_REALTIME_COARSE, 9100, 9000 },
	{ TKC_CLOCK_MONOTONIC_COARSE, 9100, 9000 },
	{ TKC_CLOCK_MONOTONIC, 8999, 9000 },
};

static const struct reached_time reached_times[] = {
	{ TKC_CLOCK_REALTIME, 1800000002, 9, 1000004000 },
	{ TKC_CLOCK_REALTIME, 1800000001, 1000000009, 1000004000 },
	{ TKC_CLOCK_MONOTONIC, 1, 0, 1000002000 },
	{ TKC_CLOCK_MONOTONIC_RAW, 1, 0, 1000002000 },
	{ TKC_CLOCK_BOOTTIME, 3, 3, 1000002000 },
	{ TKC_CLOCK_TAI, 1800000039, 9, 1000004000 },
	{ TKC_CLOCK_MONOTONIC, INT64_MIN, UINT32_MAX, 9000 },
	{ TKC_CLOCK_MONOTONIC, 2, 147490647, 2147492647 },
};

static const struct missed_time missed_times[] = {
	{ COMMANDED_CLOCKS, 2, 0, 0, TKC_BAD_CLOCK },
	{ COMMANDED_CLOCKS, 12, INT64_MAX, 0, TKC_BAD_CLOCK },
	{ COMMANDED_CLOCKS, UINT32_MAX, 0, 0, TKC_BAD_CLOCK },
	/* half the range is 2,147,483,647 ns */
	{ COMMANDED_CLOCKS, TKC_CLOCK_MONOTONIC, 2, 147490648, TKC_FURTHER },
	{ COMMANDED_CLOCKS, TKC_CLOCK_MONOTONIC_RAW, 2, 147490648, TKC_FURTHER },
	{ COMMANDED_CLOCKS, TKC_CLOCK_MONOTONIC, 946079999, 999999999, TKC_FURTHER },
	{ COMMANDED_CLOCKS, TKC_CLOCK_REALTIME, 9223372035, 999999999, TKC_FURTHER },
	/* no read gives a time at the clock's limit or past it */
	{ COMMANDED_CLOCKS, TKC_CLOCK_MONOTONIC, 946080000, 0, TKC_NEVER },
	{ COMMANDED_CLOCKS, TKC_CLOCK_REALTIME, 9223372036, 0, TKC_NEVER },
	{ COMMANDED_CLOCKS, TKC_CLOCK_MONOTONIC, INT64_MAX, UINT32_MAX, TKC_NEVER },
	{ COMMANDED_CLOCKS, TKC_CLOCK_MONOTONIC_COARSE, 0, 7001, TKC_NEVER },
	{ COMMANDED_CLOCKS, TKC_CLOCK_REALTIME_COARSE, 1800000001, 5010, TKC_NEVER },
	{ ASLEEP_CLOCKS, TKC_CLOCK_MONOTONIC, 0, 8001, TKC_NEVER },
	{ ASLEEP_CLOCKS, TKC_CLOCK_REALTIME, 9223372036, 0, TKC_NEVER },
	/* the clock reaches its limit before */
	{ WIDE_CLOCKS, TKC_CLOCK_MONOTONIC, 946080000, 0, TKC_NEVER },
};

static void try_read_time(const struct read_time *row)
{
	struct tkc_snapshot snapshot = snapshot_of(commanded());
	struct tkc_time time = read_at(&snapshot, row->clock, row->reading), again;
	uint64_t out = OLD;

	check(!tkc_snapshot_reading(&out, &snapshot, row->clock, time.sec,
				    time.nsec));
	check(out == row->first);
	again = read_at(&snapshot, row->clock, out);
	check(again.sec == time.sec && again.nsec == time.nsec);
}

static void try_reached_time(const struct reached_time *row)
{
	struct tkc_snapshot snapshot = snapshot_of(commanded());
	uint64_t out = OLD;

	check(!tkc_snapshot_reading(&out, &snapshot, row->clock, row->sec,
				    row->nsec));
	check(out == row->first);
}

static struct tkc_clock clocks_of(enum clocks of)
{
	static const struct command suspend = { 10000, TKC_CMD_SUSPEND, 0, 0, TKC_OK };
	struct tkc_clock clock = commanded();

	if (of == WIDE_CLOCKS)
		return opened_wide();
	if (of == ASLEEP_CLOCKS)
		apply(&clock, &suspend);
	return clock;
}

static void try_missed_time(const struct missed_time *row)
{
	struct tkc_snapshot snapshot = snapshot_of(clocks_of(row->of));
	uint64_t out = OLD;

	check(tkc_snapshot_reading(&out, &snapshot, row->clock, row->sec,
				   row->nsec) == row->code);
	check(out == OLD);
}

/* A cycle takes 2 s: MONOTONIC is 946,079,998 s at one reading, and at its limit at the next one. So
 * no read gives a time between the two. */
static void try_slow(void)
{
	struct tkc_snapshot snapshot;
	struct tkc_counter counter;
	struct tkc_clock clock;
	uint64_t out = OLD;

	check(!tkc_counter_new(&counter, 64, 2000000000, 0));
	check(!tkc_clock_open(&clock, &counter, 0, 1700000000, 0));
	snapshot = snapshot_of(clock);
	check(tkc_snapshot_reading(&out, &snapshot, TKC_CLOCK_MONOTONIC, 946079999, 0) ==
	      TKC_NEVER);
	check(out == OLD);
	check(!tkc_snapshot_reading(&out, &snapshot, TKC_CLOCK_MONOTONIC, 946079998, 0));
	check(out == 473039999);
}

void try_readings(void)
{
	try_each(read_times, try_read_time);
	try_each(reached_times, try_reached_time);
	try_each(missed_times, try_missed_time);
	try_slow();
}
