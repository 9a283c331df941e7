/* SPDX-License-Identifier: MIT OR Apache-2.0 */
/* Opens clocks, and applies commands to them. */
#include "worked_rows.h"

struct opening {
	uint64_t reading;
	int64_t sec;
	uint32_t nsec, code;
};

static const struct opening openings[] = {
	{ 1000, 1700000000, 9, TKC_OK },
	{ 4294967296, 1700000000, 9, TKC_INVALID },
	{ 1000, -1, 9, TKC_INVALID },
	{ 1000, 1700000000, 1000000000, TKC_INVALID },
};

/* The clocks of the first opening. */
static const struct stored OPENED = {
	.words = { 0, 1000, 16777216, 0, 0, 1700000000000000009, 0, 0, 0, 0 },
	.frequency = 0,
	.tick = 10000,
};

static const struct command refused_commands[] = {
	{ 1000, TKC_CMD_UPDATE, 0, 0, TKC_OK },
	{ 2000, 9, 0, 0, TKC_BAD_COMMAND },
	{ 2000, UINT32_MAX, 0, 0, TKC_BAD_COMMAND },
	{ 2000, TKC_CMD_RESUME, 0, 0, TKC_AWAKE },
	{ 4294967296, TKC_CMD_UPDATE, 0, 0, TKC_INVALID },
	{ 2000, TKC_CMD_SET_TIME, 0, 1000000000, TKC_INVALID },
	{ 2000, TKC_CMD_TICK, 8999, 0, TKC_INVALID },
	{ 2000, TKC_CMD_STEP, INT64_MIN, 0, TKC_INVALID },
	{ 999, TKC_CMD_UPDATE, 0, 0, TKC_BEHIND },
	{ 2000, TKC_CMD_SUSPEND, 0, 0, TKC_OK },
	{ 3000, TKC_CMD_UPDATE, 0, 0, TKC_ASLEEP },
};

/* An insertion: REALTIME is a second less and the TAI offset a second more, in one command. */
static const struct command leap_commands[] = {
	{ 1000, TKC_CMD_TAI_OFFSET, 37, 0, TKC_OK },
	{ 1000, TKC_CMD_LEAP, 0, 37, TKC_INVALID },
	{ 1000, TKC_CMD_LEAP, -2, 39, TKC_INVALID },
	{ 1000, TKC_CMD_LEAP, -1, 100001, TKC_INVALID },
	{ 1000, TKC_CMD_LEAP, -1, 38, TKC_OK },
};

/* The clocks after that: the word of the TAI offset is twice the offset. */
static const struct stored LEAPT = {
	.words = { 2, 1000, 16777216, 16777216000, 0, 1699999999000000000, 0, 76,
		   16777216000, 0 },
	.frequency = 0,
	.tick = 10000,
};

/* A cycle later MONOTONIC would be past its limit, 946,080,000 s. */
static const struct command last_commands[] = {
	{ 225563049317, TKC_CMD_UPDATE, 0, 0, TKC_RANGE },
	{ 225563049316, TKC_CMD_UPDATE, 0, 0, TKC_OK },
};

/* One command can be counted. Then FULL precedes each other code, except for a
 * number that no command has. */
static const struct command counted_commands[] = {
	{ 1000, TKC_CMD_UPDATE, 0, 0, TKC_OK },
	{ 1000, TKC_CMD_UPDATE, 0, 0, TKC_FULL },
	{ 0, TKC_CMD_RESUME, -1, 0, TKC_FULL },
	{ 1000, 9, 0, 0, TKC_BAD_COMMAND },
};

/* The clocks that the commands of a table are applied to. */
static struct tkc_clock clock;

static void try_opening(const struct opening *row)
{
	struct tkc_counter counter = nanosecond_counter();
	struct tkc_clock out;

	make_old(&out);
	check(tkc_clock_open(&out, &counter, row->reading, row->sec, row->nsec) ==
	      row->code);
	if (row->code)
		check(is_old(&out));
	else
		check_clock(&out, &OPENED);
}

static void try_command(const struct command *row)
{
	apply(&clock, row);
}

/* Returns the number of commands that the clocks count, and stores another. */
static uint64_t count_from(uint64_t front)
{
	struct tkc_counter counter = nanosecond_counter();
	struct stored stored;
	uint64_t before;

	tkc_clock_words(stored.words, &stored.frequency, &stored.tick, &clock);
	before = stored.words[0];
	stored.words[0] = front;
	check(!tkc_clock_from_words(&clock, &counter, stored.words,
				    stored.frequency, stored.tick));
	return before;
}

void try_commands(void)
{
	clock = commanded();
	check_clock(&clock, &COMMANDED);
	try_each(openings, try_opening);
	clock = opened();
	try_each(refused_commands, try_command);
	clock = opened();
	try_each(leap_commands, try_command);
	check_clock(&clock, &LEAPT);
	clock = opened_wide();
	try_each(last_commands, try_command);
	clock = opened();
	check(count_from(9223372036854775806) == 0);
	try_each(counted_commands, try_command);
	check(count_from(0) == 9223372036854775807);
}
