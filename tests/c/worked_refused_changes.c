/* SPDX-License-Identifier: MIT OR Apache-2.0 */
/* Changes of counter that are refused, and those next to them that aren't. */
#include "worked_changes.h"

/* 1,000 ns before the end of BOOTTIME, and of TAI. */
static const struct command near_boottime_end[] = {
	{ 0, TKC_CMD_SUSPEND, 0, 0, TKC_OK },
	{ 0, TKC_CMD_RESUME, 9223372035, 999999000, TKC_OK },
	{ 0, TKC_CMD_SET_TIME, 0, 0, TKC_OK },
};

static const struct command near_tai_end[] = {
	{ 0, TKC_CMD_TAI_OFFSET, 100000, 0, TKC_OK },
	{ 0, TKC_CMD_SUSPEND, 0, 0, TKC_OK },
	{ 0, TKC_CMD_RESUME, 9223272035, 999999000, TKC_OK },
};

static const struct change changes_at_a_limit[] = {
	{ 1000, FINE, 0, TKC_RANGE },
	{ 999, FINE, 0, TKC_OK },
};

/* A cycle later MONOTONIC would be at its limit, 946,080,000 s. */
static const struct change last_changes[] = {
	{ 225563049317, NANOSECOND, 0, TKC_RANGE },
	{ 225563049316, NANOSECOND, 0, TKC_OK },
};

static const struct timed_read last_reads[] = {
	{ TKC_CLOCK_MONOTONIC, 0, 946079999, 998296064 },
};

/* MONOTONIC_RAW is too far ahead for one counter, and not for the other. */
static const struct command slowest[] = {
	{ 0, TKC_CMD_FREQ, -32768000, 0, TKC_OK },
	{ 0, TKC_CMD_TICK, 9000, 0, TKC_OK },
};

static const struct change slowest_changes[] = {
	{ 1000, EXACT, 0, TKC_RANGE },
	{ 1000, SLOW, 0, TKC_OK },
};

static const struct timed_read slowest_reads[] = {
	{ TKC_CLOCK_MONOTONIC, 0, 0, 899 },
	{ TKC_CLOCK_MONOTONIC_RAW, 0, 0, 1000 },
};

/* One cycle at the usual rate is enough. */
static const struct command usual_again[] = {
	{ 1000000, TKC_CMD_FREQ, 0, 0, TKC_OK },
	{ 1000000, TKC_CMD_TICK, 10000, 0, TKC_OK },
};

static const struct change usual_changes[] = {
	{ 1000000, EXACT, 0, TKC_RANGE },
	{ 1000001, EXACT, 0, TKC_OK },
};

/* The first test that fails decides. The clocks run at their slowest rate. */
static const struct change refused_changes[] = {
	{ 4294967296, MILLISECOND, 0, TKC_INVALID },
	{ 1000, MILLISECOND, 256, TKC_INVALID },
	{ 2147483648, MILLISECOND, 256, TKC_INVALID },
	{ 2147483648, MILLISECOND, 255, TKC_BEHIND },
	{ 1000, MILLISECOND, 255, TKC_RANGE },
};

/* One command can be counted. Then FULL precedes each other code. */
static const struct change counted_changes[] = {
	{ 1000, WIDE, 7, TKC_OK },
	{ 7, FINE, 0, TKC_FULL },
	{ 7, NARROW, 256, TKC_FULL },
	{ 6, FINE, 0, TKC_FULL },
};

/* The clocks that the rows of a table are applied to. */
static struct tkc_clock clock;

static void try_command(const struct command *row)
{
	apply(&clock, row);
}

static void try_change(const struct change *row)
{
	change(&clock, row);
}

static void try_read(const struct timed_read *row)
{
	read_row(&clock, row);
}

static void try_limits(void)
{
	clock = opened_at(NANOSECOND, 0, 0);
	try_each(near_boottime_end, try_command);
	try_each(changes_at_a_limit, try_change);
	clock = opened_at(NANOSECOND, 0, 0);
	try_each(near_tai_end, try_command);
	try_each(changes_at_a_limit, try_change);
	clock = opened_wide();
	try_each(last_changes, try_change);
	try_each(last_reads, try_read);
}

static void try_rates(void)
{
	clock = opened();
	try_each(slowest, try_command);
	try_each(refused_changes, try_change);
	try_each(slowest_changes, try_change);
	try_each(slowest_reads, try_read);
	clock = opened();
	try_each(slowest, try_command);
	try_each(usual_again, try_command);
	try_each(usual_changes, try_change);
}

static void try_count(void)
{
	struct tkc_counter counter = nanosecond_counter();
	struct stored stored;

	clock = opened();
	tkc_clock_words(stored.words, &stored.frequency, &stored.tick, &clock);
	stored.words[0] = 9223372036854775806;
	check(!tkc_clock_from_words(&clock, &counter, stored.words,
				    stored.frequency, stored.tick));
	try_each(counted_changes, try_change);
	tkc_clock_words(stored.words, &stored.frequency, &stored.tick, &clock);
	check(stored.words[0] == 9223372036854775807);
}

void try_refused_changes(void)
{
	try_limits();
	try_rates();
	try_count();
}
