/* SPDX-License-Identifier: MIT OR Apache-2.0 */
/* Loads clocks from 15 words: random ones, and saved ones with some of them
 * changed. */
#include "any_bytes.h"

#include <string.h>

enum { SAVED = TKC_SAVED_WORDS * sizeof(uint64_t) };

static void try_load(const uint64_t given[TKC_SAVED_WORDS], bool is_saved)
{
	uint64_t *words = put(rooms.words, given, SAVED);
	struct tkc_clock before;
	struct tkc_clock *out = fill(rooms.clock, &before, sizeof(before));
	uint32_t code = saw(tkc_clock_load(out, words));

	check(code == TKC_OK || (code == TKC_BAD_WORDS && !is_saved));
	check(!memcmp(words, given, SAVED));
	if (code) {
		check(!memcmp(out, &before, sizeof(before)));
		return;
	}
	words = place(rooms.words, SAVED);
	tkc_clock_save(words, out);
	check(!memcmp(words, given, SAVED));
}

/* The counter of the clocks' snapshot has the numbers that are saved. */
static void check_counter(const struct tkc_clock *of, const uint64_t words[TKC_SAVED_WORDS])
{
	struct tkc_snapshot *snapshot = place(rooms.snapshot, sizeof(*snapshot));
	struct tkc_counter *counter = place(rooms.counter, sizeof(*counter));
	uint32_t bits, mult, shift;

	tkc_clock_snapshot(snapshot, of);
	tkc_snapshot_counter(counter, snapshot);
	tkc_counter_numbers(&bits, &mult, &shift, counter);
	check(words[10] == bits && words[11] == mult && words[12] == shift);
}

void try_saved(const struct tkc_clock *of)
{
	const struct tkc_clock *clock = put(rooms.clock, of, sizeof(*of));
	uint64_t saved[TKC_SAVED_WORDS], *words = place(rooms.words, SAVED);

	tkc_clock_save(words, clock);
	memcpy(saved, words, SAVED);
	check(!memcmp(clock, of, sizeof(*of)));
	check_counter(of, saved);
	try_load(saved, true);
	for (uint64_t n = 1 + below(3); n > 0; n--) {
		uint64_t *word = &saved[below(TKC_SAVED_WORDS)];

		*word = one_in(2) ? some() : *word + below(3) - 1;
	}
	try_load(saved, false);
	for (int i = 0; i < TKC_SAVED_WORDS; i++)
		saved[i] = some();
	try_load(saved, false);
}
