/* SPDX-License-Identifier: MIT OR Apache-2.0 */
/* Restores snapshots and clocks from words: random ones, and stored ones with
 * some of them changed. */
#include "any_bytes.h"

#include <string.h>

static void spoil(uint64_t words[TKC_WORDS])
{
	for (uint64_t n = below(3); n > 0; n--) {
		uint64_t *word = &words[below(TKC_WORDS)];

		*word = one_in(2) ? some() : *word + below(3) - 1;
	}
}

void try_snapshot_words(const struct tkc_counter *of,
			const uint64_t given[TKC_WORDS])
{
	const struct tkc_counter *counter = put(rooms.counter, of, sizeof(*of));
	uint64_t *words = put(rooms.words, given, TKC_WORDS * sizeof(*words));
	struct tkc_snapshot before;
	struct tkc_snapshot *out = fill(rooms.other, &before, sizeof(before));
	uint32_t code = saw(tkc_snapshot_from_words(out, counter, words));

	check(code == TKC_OK || code == TKC_BAD_WORDS);
	check(!memcmp(words, given, TKC_WORDS * sizeof(*words)));
	if (code) {
		check(!memcmp(out, &before, sizeof(before)));
		return;
	}
	check(is_same_snapshot(out, given));
	try_reads(out);
}

static void check_clock_words(const struct tkc_clock *clock,
			      const uint64_t words[TKC_WORDS], int64_t frequency,
			      int64_t tick)
{
	uint64_t *found = place(rooms.words, TKC_WORDS * sizeof(*found));
	int64_t *found_frequency = place(rooms.frequency, sizeof(frequency));
	int64_t *found_tick = place(rooms.tick, sizeof(tick));

	tkc_clock_words(found, found_frequency, found_tick, clock);
	check(!memcmp(found, words, TKC_WORDS * sizeof(*found)));
	check(*found_frequency == frequency && *found_tick == tick);
}

uint32_t try_clock_words(struct tkc_clock *clock, const struct tkc_counter *of,
			 const uint64_t given[TKC_WORDS], int64_t frequency,
			 int64_t tick)
{
	const struct tkc_counter *counter = put(rooms.counter, of, sizeof(*of));
	uint64_t *words = put(rooms.words, given, TKC_WORDS * sizeof(*words));
	struct tkc_clock before;
	struct tkc_clock *out = fill(rooms.clock, &before, sizeof(before));
	uint32_t code = saw(tkc_clock_from_words(out, counter, words, frequency,
						 tick));

	check(code == TKC_OK || code == TKC_BAD_WORDS);
	if (code)
		check(!memcmp(out, &before, sizeof(before)));
	else
		check_clock_words(out, given, frequency, tick);
	*clock = *out;
	return code;
}

void try_words(const struct tkc_clock *of, const struct tkc_counter *counter)
{
	const struct tkc_clock *clock = put(rooms.clock, of, sizeof(*of));
	uint64_t words[TKC_WORDS];
	int64_t frequency, tick;
	struct tkc_clock same;

	tkc_clock_words(words, &frequency, &tick, clock);
	check(!try_clock_words(&same, counter, words, frequency, tick));
	spoil(words);
	try_snapshot_words(counter, words);
	if (one_in(8))
		frequency = (int64_t)some();
	if (one_in(8))
		tick = (int64_t)some();
	(void)try_clock_words(&same, counter, words, frequency, tick);
}
