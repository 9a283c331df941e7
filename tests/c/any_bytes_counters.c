/* SPDX-License-Identifier: MIT OR Apache-2.0 */
/* Describes counters by random numbers. */
#include "any_bytes.h"

#include <string.h>

static uint32_t try_new(struct tkc_counter *counter)
{
	struct tkc_counter before;
	struct tkc_counter *out = fill(rooms.counter, &before, sizeof(before));
	uint32_t bits = one_in(4) ? (uint32_t)some() : (uint32_t)below(70);
	uint32_t shift = one_in(4) ? (uint32_t)some() : (uint32_t)below(36);
	uint32_t code = saw(tkc_counter_new(out, bits, (uint32_t)some(), shift));

	check(code == TKC_OK || (code >= TKC_BAD_BITS && code <= TKC_BAD_ADJUST));
	check(!code || !memcmp(out, &before, sizeof(before)));
	*counter = *out;
	return code;
}

static uint32_t try_from_rate(struct tkc_counter *counter)
{
	struct tkc_counter before;
	struct tkc_counter *out = fill(rooms.counter, &before, sizeof(before));
	uint32_t bits = one_in(4) ? (uint32_t)some() : (uint32_t)below(70);
	uint32_t maxsec = one_in(4) ? (uint32_t)some() : (uint32_t)below(603);
	uint64_t rate = some() >> some() % 64;
	uint32_t code = saw(one_in(2) ? tkc_counter_from_hz(out, bits, rate, maxsec) :
			    one_in(2) ? tkc_counter_from_khz(out, bits, rate, maxsec) :
					tkc_counter_finest(out, bits, rate, maxsec));

	check(code == TKC_OK || code == TKC_BAD_BITS || code == TKC_BAD_RATE);
	check(!code || !memcmp(out, &before, sizeof(before)));
	*counter = *out;
	return code;
}

/* Checks that the numbers of a counter give it back. */
static void try_numbers(const struct tkc_counter *of)
{
	const struct tkc_counter *counter = put(rooms.counter, of, sizeof(*of));
	uint32_t *bits = place(rooms.words, sizeof(*bits));
	uint32_t *mult = place(rooms.frequency, sizeof(*mult));
	uint32_t *shift = place(rooms.tick, sizeof(*shift));
	struct tkc_counter same;

	tkc_counter_numbers(bits, mult, shift, counter);
	check(!memcmp(counter, of, sizeof(*of)));
	check(!tkc_counter_new(&same, *bits, *mult, *shift));
	check(!memcmp(&same, of, sizeof(*of)));
}

/* Checks that the sums of cycles agree: a gap leads from one reading to the
 * other, and more cycles don't take less time. */
static void try_cycles(const struct tkc_counter *of)
{
	const struct tkc_counter *counter = put(rooms.counter, of, sizeof(*of));
	uint64_t from = some(), to = some(), more = some(), bits, gap;
	uint32_t numbers[3];

	tkc_counter_numbers(&numbers[0], &numbers[1], &numbers[2], of);
	bits = UINT64_MAX >> (64 - numbers[0]);
	gap = tkc_counter_gap(counter, from, to);
	check(gap <= bits && ((from + gap) & bits) == (to & bits));
	check(from > UINT64_MAX - more || tkc_counter_nanos(counter, from) <=
						  tkc_counter_nanos(counter, from + more));
	check(!memcmp(counter, of, sizeof(*of)));
}

void some_counter(struct tkc_counter *counter)
{
	uint32_t bits = 8 + (uint32_t)below(57);

	if (one_in(2) ? try_new(counter) : try_from_rate(counter))
		check(!tkc_counter_from_hz(counter, bits, 24000000, 600));
	try_numbers(counter);
	try_cycles(counter);
}
