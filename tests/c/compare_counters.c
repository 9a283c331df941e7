/* SPDX-License-Identifier: MIT OR Apache-2.0 */
/* Compares the calls that make counters and compute with cycles with the model. */
#include "compare_model.h"
#include "random.h"

/* Makes a counter from its numbers. Returns the code. */
static uint32_t make_from_numbers(struct tkc_counter *counter, struct numbers *numbers)
{
	uint32_t code;

	numbers->mult = (uint32_t)(any() >> below(64));
	numbers->shift = (uint32_t)below(34);
	code = model_counter(numbers->bits, numbers->mult, numbers->shift);
	CHECK(tkc_counter_new(counter, numbers->bits, numbers->mult, numbers->shift) == code);
	return code;
}

/* Makes a counter from its rate, and stores the numbers that the model gives it. Returns the
 * code. */
static uint32_t make_from_rate(struct tkc_counter *counter, struct numbers *numbers)
{
	uint32_t maxsec = (uint32_t)below(602), bits = numbers->bits;
	uint64_t rate = any() >> below(64), scale = below(2) ? 1000 : 1;
	uint32_t code = model_rate(bits, rate, maxsec);

	if (below(2)) {
		code = model_finest(bits, rate, maxsec, &numbers->mult, &numbers->shift);
		CHECK(tkc_counter_finest(counter, bits, rate, maxsec) == code);
		return code;
	}
	if (scale == 1)
		CHECK(tkc_counter_from_hz(counter, bits, rate, maxsec) == code);
	else
		CHECK(tkc_counter_from_khz(counter, bits, rate, maxsec) == code);
	if (!code)
		model_scale(scale, rate, maxsec, &numbers->mult, &numbers->shift);
	return code;
}

/* Computes with the cycles of a counter. */
static void try_cycles(const struct tkc_counter *counter, const struct numbers *numbers)
{
	uint64_t from = some(), to = below(2) ? some() : from + below(1000), cycles = some();
	uint64_t mask = UINT64_MAX >> (64 - numbers->bits);
	u128 nanos = ((u128)cycles * numbers->mult) >> numbers->shift;

	CHECK(tkc_counter_gap(counter, from, to) == ((to - from) & mask));
	CHECK(tkc_counter_nanos(counter, cycles) ==
	      (nanos > UINT64_MAX ? UINT64_MAX : (uint64_t)nanos));
}

bool make_counter(struct tkc_counter *counter, struct numbers *numbers, bool has_rate)
{
	uint32_t found[3];

	numbers->bits = (uint32_t)(below(9) ? 8 + below(57) : some());
	if (has_rate ? make_from_rate(counter, numbers) : make_from_numbers(counter, numbers))
		return false;
	tkc_counter_numbers(&found[0], &found[1], &found[2], counter);
	CHECK(found[0] == numbers->bits && found[1] == numbers->mult &&
	      found[2] == numbers->shift);
	try_cycles(counter, numbers);
	return true;
}
