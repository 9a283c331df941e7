/* SPDX-License-Identifier: MIT OR Apache-2.0 */
/* Opens clocks with an uptime. */
#include "worked_rows.h"

/* An opening at the reading 5 of the counter of a nanosecond a cycle. */
struct opening {
	uint64_t reading;
	int64_t sec;
	uint32_t nsec;
	int64_t uptime_sec;
	uint32_t uptime_nsec, code;
};

static const struct opening openings[] = {
	{ 5, 1700000000, 0, 0, 0, TKC_OK },
	{ 5, 1700000000, 7, 3600, 999999999, TKC_OK },
	{ 4294967295, 8277292035, 999999999, 946079999, 999999999, TKC_OK },
	/* REALTIME is MONOTONIC */
	{ 0, 86400, 1, 86400, 1, TKC_OK },
	{ 0, 0, 0, 0, 0, TKC_OK },
	/* as tkc_clock_open */
	{ 4294967296, 1700000000, 0, 1, 0, TKC_INVALID },
	{ 0, -1, 0, 0, 0, TKC_INVALID },
	{ 0, 8277292036, 0, 0, 0, TKC_INVALID },
	{ 0, 1700000000, 1000000000, 0, 0, TKC_INVALID },
	/* the first test that fails decides */
	{ 4294967296, 1700000000, 0, 946080000, 0, TKC_INVALID },
	{ 0, 1700000000, 0, -1, 0, TKC_INVALID },
	{ 0, 1700000000, 0, INT64_MIN, 0, TKC_INVALID },
	{ 0, 1700000000, 0, 1, 1000000000, TKC_INVALID },
	{ 0, 1700000000, 0, 946080000, 1000000000, TKC_INVALID },
	{ 0, 1700000000, 0, 946080000, 0, TKC_RANGE },
	{ 0, 5, 0, 946080000, 0, TKC_RANGE },
	{ 0, 1700000000, 0, INT64_MAX, 999999999, TKC_RANGE },
	/* REALTIME would be below MONOTONIC */
	{ 0, 86400, 0, 86400, 1, TKC_INVALID },
	{ 0, 0, 999999999, 1, 0, TKC_INVALID },
};

static void check_time(const struct tkc_snapshot *snapshot, uint32_t clock, uint64_t reading,
		       int64_t sec, uint32_t nsec)
{
	struct tkc_time time = read_at(snapshot, clock, reading);

	check(time.sec == sec && time.nsec == nsec);
}

/* Checks the times at the opening, and that all else is as in clocks that are just opened: the
 * words except for MONOTONIC, MONOTONIC_RAW and the offset of REALTIME. */
static void check_opened(const struct opening *row, const struct tkc_clock *clock,
			 const struct tkc_clock *fresh)
{
	struct tkc_snapshot snapshot = snapshot_of(*clock);
	uint64_t reading = row->reading;
	struct stored found, other;

	check_time(&snapshot, TKC_CLOCK_MONOTONIC, reading, row->uptime_sec, row->uptime_nsec);
	check_time(&snapshot, TKC_CLOCK_MONOTONIC_RAW, reading, row->uptime_sec, row->uptime_nsec);
	check_time(&snapshot, TKC_CLOCK_BOOTTIME, reading, row->uptime_sec, row->uptime_nsec);
	check_time(&snapshot, TKC_CLOCK_REALTIME, reading, row->sec, row->nsec);
	check_time(&snapshot, TKC_CLOCK_TAI, reading, row->sec, row->nsec);
	tkc_clock_words(found.words, &found.frequency, &found.tick, clock);
	tkc_clock_words(other.words, &other.frequency, &other.tick, fresh);
	found.words[3] = found.words[4] = found.words[8] = found.words[9] = 0;
	found.words[5] += (uint64_t)row->uptime_sec * 1000000000 + row->uptime_nsec;
	check(!memcmp(&found, &other, sizeof(found)));
}

static void try_opening(const struct opening *row)
{
	struct tkc_counter counter = nanosecond_counter();
	struct tkc_clock out, fresh;

	make_old(&out);
	check(tkc_clock_open_at(&out, &counter, row->reading, row->sec, row->nsec,
				row->uptime_sec, row->uptime_nsec) == row->code);
	if (row->code) {
		check(is_old(&out));
		return;
	}
	check(!tkc_clock_open(&fresh, &counter, row->reading, row->sec, row->nsec));
	check_opened(row, &out, &fresh);
}

/* Clocks with an uptime refuse a time below it, and go on counting. */
static void try_running(void)
{
	static const struct command commands[] = {
		{ 100, TKC_CMD_SET_TIME, 3599, 999999999, TKC_INVALID },
		{ 200, TKC_CMD_SET_TIME, 3601, 0, TKC_OK },
	};
	struct tkc_counter counter = nanosecond_counter();
	struct tkc_snapshot snapshot;
	struct tkc_clock clock;

	check(!tkc_clock_open_at(&clock, &counter, 0, 1700000000, 0, 3600, 0));
	for (size_t i = 0; i < COUNT_OF(commands); i++)
		apply(&clock, &commands[i]);
	snapshot = snapshot_of(clock);
	check_time(&snapshot, TKC_CLOCK_MONOTONIC, 300, 3600, 300);
	check_time(&snapshot, TKC_CLOCK_REALTIME, 300, 3601, 100);
}

void try_openings(void)
{
	try_each(openings, try_opening);
	try_running();
}
