/* SPDX-License-Identifier: MIT OR Apache-2.0 */
/* Loads steered clocks from the 15 words of clocks and 18 numbers: those in their
 * ranges, and some that are changed. A load must accept exactly the former. */
#include "any_bytes.h"

#include <string.h>

enum { NUMBERS = TKC_NTP_SAVED_WORDS - TKC_SAVED_WORDS };

#define HALF_SECOND (500000000ULL << 32) /* as a length, in 2^-32 ns */
#define MOST_GAINED (500000ULL << 32)

/* The least and the greatest value of a number that has no sign. */
static const struct range {
	uint64_t least, most;
} ranges[NUMBERS] = {
	[0] = { 1, 1024 },
	[1] = { 0, UINT32_MAX },
	[2] = { 0, 4 },
	[3] = { 0, 1 },
	[4] = { 0, UINT64_MAX },
	[6] = { 0, 10 },
	[7] = { 0, 16000000 },
	[8] = { 0, 16000000 },
	[9] = { 9000, 11000 },
	[11] = { 0, INT64_MAX },
	[12] = { 0, UINT64_MAX },
	[14] = { 1ULL << 59, 3ULL << 59 },
	[15] = { 0, UINT64_MAX },
	[16] = { 0, 9223372037 },
	[17] = { 0, UINT64_MAX },
};

/* The greatest value of a number with a sign, or 0 if it has none. */
static uint64_t greatest(int place, uint64_t hz)
{
	switch (place) {
	case 5:
		return HALF_SECOND / hz;
	case 10:
		return MOST_GAINED;
	case 13:
		return HALF_SECOND / hz + MOST_GAINED / hz;
	default:
		return 0;
	}
}

static bool is_in_range(int place, uint64_t number, uint64_t hz)
{
	uint64_t most = greatest(place, hz);

	if (most)
		return number + most <= 2 * most;
	return number >= ranges[place].least && number <= ranges[place].most;
}

static bool are_in_range(const uint64_t numbers[NUMBERS])
{
	if (!is_in_range(0, numbers[0], 0))
		return false;
	for (int i = 0; i < NUMBERS; i++) {
		if (!is_in_range(i, numbers[i], numbers[0]))
			return false;
	}
	if (numbers[14] == 3ULL << 59 && numbers[15])
		return false;
	return numbers[3] || !numbers[4];
}

static uint64_t some_number(int place, uint64_t hz)
{
	uint64_t most = greatest(place, hz), span;

	if (most)
		return one_in(4) ? most - 2 * most * below(2) : below(2 * most + 1) - most;
	span = ranges[place].most - ranges[place].least;
	if (one_in(4))
		return ranges[place].least + span * below(2);
	return ranges[place].least + (span == UINT64_MAX ? some() : below(span + 1));
}

static void some_numbers(uint64_t numbers[NUMBERS])
{
	for (int i = 0; i < NUMBERS; i++)
		numbers[i] = some_number(i, numbers[0]);
	if (!numbers[3])
		numbers[4] = 0;
	if (numbers[14] == 3ULL << 59)
		numbers[15] = 0;
}

/* Asks for the coming leap of steered clocks with these numbers, and for the numbers of replies. */
static void ask(const struct tkc_ntp *ntp, const uint64_t numbers[NUMBERS])
{
	uint64_t bit = numbers[2] == TKC_TIME_INS ? TKC_STA_INS :
		       numbers[2] == TKC_TIME_DEL ? TKC_STA_DEL : 0;
	bool is_coming = numbers[3] && numbers[4] >= numbers[16] && numbers[1] & bit;
	uint64_t before;
	uint64_t *second = fill(rooms.out, &before, sizeof(before));
	int64_t by = tkc_ntp_leap(second, ntp), most = 32768000;

	check(by == (!is_coming ? 0 : bit == TKC_STA_INS ? -1 : 1));
	check(*second == (is_coming ? numbers[4] : before));
	check(tkc_ntp_status(ntp) == numbers[1]);
	check(tkc_ntp_tick_length(ntp) == (int64_t)numbers[9]);
	check(tkc_ntp_frequency(ntp) >= -most && tkc_ntp_frequency(ntp) <= most);
}

static void try_load(const uint64_t given[TKC_NTP_SAVED_WORDS])
{
	const size_t size = TKC_NTP_SAVED_WORDS * sizeof(*given);
	uint64_t *words = put(rooms.words, given, size);
	struct tkc_ntp before;
	struct tkc_ntp *out = fill(rooms.ntp, &before, sizeof(before));
	uint32_t code = saw(tkc_ntp_load(out, words));

	check(code == (are_in_range(given + TKC_SAVED_WORDS) ? TKC_OK : TKC_BAD_WORDS));
	check(!memcmp(words, given, size));
	if (code) {
		check(!memcmp(out, &before, sizeof(before)));
		return;
	}
	words = place(rooms.words, size);
	tkc_ntp_save(words, out);
	check(!memcmp(words, given, size));
	ask(out, given + TKC_SAVED_WORDS);
}

void try_saved_ntp(const struct tkc_clock *of)
{
	const struct tkc_clock *clock = put(rooms.clock, of, sizeof(*of));
	uint64_t words[TKC_NTP_SAVED_WORDS], *numbers = words + TKC_SAVED_WORDS;

	tkc_clock_save(words, clock);
	some_numbers(numbers);
	check(are_in_range(numbers));
	try_load(words);
	for (uint64_t n = 1 + below(3); n > 0; n--) {
		uint64_t *number = &numbers[below(NUMBERS)];

		*number = one_in(2) ? some() : *number + below(3) - 1;
	}
	try_load(words);
}
