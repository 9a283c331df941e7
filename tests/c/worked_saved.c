/* SPDX-License-Identifier: MIT OR Apache-2.0 */
/* Saves clocks as words with their counter, and loads them. */
#include "worked_rows.h"

/* A word of saved clocks, in its place, and the code of a load. */
struct saved_word {
	size_t place;
	uint64_t word;
	uint32_t code;
};

/* The clocks over a counter of a nanosecond a cycle. The counter's numbers, the
 * frequency and the tick are at the ends of their ranges and just past them;
 * and as they were, plus 2^32. */
static const struct saved_word saved_words[] = {
	{ 0, UINT64_MAX, TKC_OK },
	{ 7, 200002, TKC_BAD_WORDS },
	{ 10, 7, TKC_BAD_WORDS },
	{ 10, 64, TKC_OK },
	{ 10, 65, TKC_BAD_WORDS },
	{ 10, 4294967328, TKC_BAD_WORDS },
	{ 11, 255, TKC_BAD_WORDS },
	{ 11, 3869339907, TKC_BAD_WORDS },
	{ 11, 4311744512, TKC_BAD_WORDS },
	{ 12, 33, TKC_BAD_WORDS },
	{ 12, 4294967320, TKC_BAD_WORDS },
	{ 12, UINT64_MAX, TKC_BAD_WORDS },
	/* another frequency has another multiplier, and some have the same */
	{ 13, 32768000, TKC_BAD_WORDS },
	{ 13, UINT64_MAX, TKC_BAD_WORDS },
	{ 13, 1, TKC_OK },
	{ 14, 8999, TKC_BAD_WORDS },
	{ 14, 11001, TKC_BAD_WORDS },
	{ 14, UINT64_MAX, TKC_BAD_WORDS },
	{ 14, 4294977296, TKC_BAD_WORDS },
};

/* Saves clocks, which must have these words, and loads them. */
static void save_and_load(const struct tkc_clock *clock, const struct stored *wanted,
			  const uint64_t numbers[3])
{
	uint64_t words[TKC_SAVED_WORDS], again[TKC_SAVED_WORDS];
	struct tkc_clock out;

	make_old(&words);
	tkc_clock_save(words, clock);
	check(!memcmp(words, wanted->words, sizeof(wanted->words)));
	check(!memcmp(&words[10], numbers, 3 * sizeof(*numbers)));
	check((int64_t)words[13] == wanted->frequency);
	check((int64_t)words[14] == wanted->tick);
	make_old(&out);
	check(!tkc_clock_load(&out, words));
	check_stored(&out, wanted);
	make_old(&again);
	tkc_clock_save(again, &out);
	check(!memcmp(again, words, sizeof(words)));
}

static void try_saved_word(const struct saved_word *row)
{
	struct tkc_clock clock = commanded(), out;
	uint64_t words[TKC_SAVED_WORDS], found[TKC_SAVED_WORDS];

	tkc_clock_save(words, &clock);
	words[row->place] = row->word;
	make_old(&out);
	check(tkc_clock_load(&out, words) == row->code);
	if (row->code) {
		check(is_old(&out));
		return;
	}
	tkc_clock_save(found, &out);
	check(!memcmp(found, words, sizeof(words)));
}

/* After a change to 56 bits, 2 ns a cycle, at its reading 9. */
static void try_changed(void)
{
	static const uint64_t numbers[3] = { 56, 33554432, 24 };
	static const struct command slower = { 20, TKC_CMD_FREQ, -32768000, 0, TKC_OK };
	struct tkc_clock clock = opened();
	struct tkc_snapshot before = snapshot_of(clock), after;
	struct tkc_counter counter, found;
	uint32_t bits, mult, shift;
	/* 20 cycles at 2 ns; 500 ppm less of 33,554,432 is 33,537,654.8 */
	static const struct stored wanted = {
		.words = { 2, 20, 33537654, 33 * 16777216, 0, 1700000000000000000, 0, 0,
			   33 * 16777216, 0 },
		.frequency = -32768000,
		.tick = 10000,
	};

	check(!tkc_counter_new(&counter, 56, 33554432, 24));
	check(!tkc_clock_change_counter(&clock, 11, &counter, 9));
	apply(&clock, &slower);
	save_and_load(&clock, &wanted, numbers);
	after = snapshot_of(clock);
	make_old(&found);
	tkc_snapshot_counter(&found, &after);
	tkc_counter_numbers(&bits, &mult, &shift, &found);
	check(bits == 56 && mult == 33554432 && shift == 24);
	/* a snapshot from before the change keeps its counter */
	make_old(&found);
	tkc_snapshot_counter(&found, &before);
	tkc_counter_numbers(&bits, &mult, &shift, &found);
	check(bits == 32 && mult == 16777216 && shift == 24);
}

void try_saved(void)
{
	static const uint64_t numbers[3] = { 32, 16777216, 24 };
	struct tkc_clock clock = commanded();

	save_and_load(&clock, &COMMANDED, numbers);
	try_each(saved_words, try_saved_word);
	try_changed();
}
