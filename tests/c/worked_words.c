/* SPDX-License-Identifier: MIT OR Apache-2.0 */
/* Stores snapshots and clocks as words, and restores them. */
#include "worked_rows.h"

/* A word of clocks that were opened at the beginning of 1970, in its place. */
struct wrong_word {
	size_t place;
	uint64_t word;
};

/* The words 2 and 8 of clocks with a frequency and a tick. */
struct running {
	uint64_t mult;
	int64_t frequency, tick;
	uint64_t raw_frac;
	uint32_t code;
};

/* Each is the lowest above its range, except for 0. */
static const struct wrong_word wrong_words[] = {
	{ 1, 4294967296 },
	{ 2, 0 },
	{ 3, 16777216000000000 },
	{ 4, 946080000 },
	{ 5, 9223372036000000000 },
	{ 6, 9223372036000000000 },
	{ 7, 200002 },
	{ 8, 16777216000000000 },
	{ 9, 1060000000 },
};

static const struct running running[] = {
	{ 16777216, 0, 10000, 0, TKC_OK },
	{ 18463326, 32768000, 11000, 0, TKC_OK },
	{ 18463326, INT64_MAX, 11000, 0, TKC_OK },
	/* another multiplier, although it is in range for a snapshot */
	{ 16777215, 0, 10000, 0, TKC_BAD_WORDS },
	{ 16777216, 32768000, 10000, 0, TKC_BAD_WORDS },
	/* a tick that can't be set */
	{ 16777216, 0, 8999, 0, TKC_BAD_WORDS },
	{ 16777216, 0, INT64_MAX, 0, TKC_BAD_WORDS },
	/* MONOTONIC_RAW has advanced, but MONOTONIC hasn't */
	{ 16777216, 0, 10000, 1, TKC_BAD_WORDS },
};

static void restore_snapshot(void)
{
	struct tkc_snapshot snapshot = snapshot_of(commanded()), out;
	struct tkc_counter counter = nanosecond_counter();
	uint64_t words[TKC_WORDS];

	make_old(&words);
	tkc_snapshot_words(words, &snapshot);
	check(!memcmp(words, COMMANDED.words, sizeof(words)));
	make_old(&out);
	check(!tkc_snapshot_from_words(&out, &counter, words));
	check_snapshot(&out, COMMANDED.words);
}

static void restore_clock(void)
{
	struct tkc_counter counter = nanosecond_counter();
	struct tkc_clock clock = commanded(), out;
	struct stored stored;

	make_old(&stored);
	tkc_clock_words(stored.words, &stored.frequency, &stored.tick, &clock);
	make_old(&out);
	check(!tkc_clock_from_words(&out, &counter, stored.words,
				    stored.frequency, stored.tick));
	check_clock(&out, &COMMANDED);
}

static void try_wrong_word(const struct wrong_word *row)
{
	struct tkc_counter counter = nanosecond_counter();
	uint64_t words[TKC_WORDS] = { 0, 0, 16777216 };
	struct tkc_snapshot snapshot;
	struct tkc_clock clock;

	words[row->place] = row->word;
	make_old(&snapshot);
	check(tkc_snapshot_from_words(&snapshot, &counter, words) ==
	      TKC_BAD_WORDS);
	check(is_old(&snapshot));
	make_old(&clock);
	check(tkc_clock_from_words(&clock, &counter, words, 0, 10000) ==
	      TKC_BAD_WORDS);
	check(is_old(&clock));
}

static void try_running(const struct running *row)
{
	struct tkc_counter counter = nanosecond_counter();
	struct stored stored = {
		.words = { 5, 0, row->mult, 0, 0, 0, 0, 0, row->raw_frac, 0 },
		.frequency = row->frequency,
		.tick = row->tick,
	}, found;
	struct tkc_clock out;

	make_old(&out);
	check(tkc_clock_from_words(&out, &counter, stored.words, row->frequency,
				   row->tick) == row->code);
	if (row->code) {
		check(is_old(&out));
		return;
	}
	tkc_clock_words(found.words, &found.frequency, &found.tick, &out);
	check(!memcmp(&found, &stored, sizeof(found)));
}

void try_words(void)
{
	restore_snapshot();
	restore_clock();
	try_each(wrong_words, try_wrong_word);
	try_each(running, try_running);
}
