/* SPDX-License-Identifier: MIT OR Apache-2.0 */
/* Converts stamps far from the last command, and compares each time with a
 * product of 128 bits. */
#include "worked_rows.h"

__extension__ typedef unsigned __int128 u128;

enum { MOST = 512, LAST = 1234567, EIGHTS = 24, OLD = 7 };

static const uint64_t SECOND = 1000000000;

/* The limit of MONOTONIC, in ns. */
static const uint64_t LIMIT = 946080000000000000;

struct rate {
	uint32_t mult, shift;
};

/* From 256 ns a cycle to 0.9 ns, with the least and the greatest shift. */
static const struct rate rates[] = {
	{ 256, 0 },
	{ 16777216, 24 },
	{ 699050667, 24 },
	{ 2147483648, 31 },
	{ 3869339000, 32 },
};

/* Stamps, and MONOTONIC at each of them. */
struct far_list {
	struct tkc_snapshot snapshot;
	uint64_t words[TKC_WORDS];
	uint32_t shift;
	size_t count;
	uint64_t stamps[MOST], times[MOST];
};

/* Begins a list of clocks with one command at the reading LAST. */
static void begin(struct far_list *list, const struct rate *rate)
{
	const struct command update = { LAST, TKC_CMD_UPDATE, 0, 0, TKC_OK };
	struct tkc_counter counter;
	struct tkc_clock clock;

	check(!tkc_counter_new(&counter, 64, rate->mult, rate->shift));
	check(!tkc_clock_open(&clock, &counter, 1000, 0, 0));
	apply(&clock, &update);
	list->snapshot = snapshot_of(clock);
	tkc_snapshot_words(list->words, &list->snapshot);
	list->shift = rate->shift;
	list->count = 0;
}

/* Returns MONOTONIC some cycles after the last command, in ns. */
static u128 monotonic_after(const struct far_list *list, uint64_t cycles)
{
	u128 units = (u128)cycles * list->words[2] + list->words[3];

	return (u128)list->words[4] * SECOND + (units >> list->shift);
}

/* Adds a stamp, unless MONOTONIC is at its limit there. */
static void add(struct far_list *list, uint64_t cycles)
{
	u128 time = monotonic_after(list, cycles);

	if (time >= LIMIT)
		return;
	list->stamps[list->count] = LAST + cycles;
	list->times[list->count++] = (uint64_t)time;
}

static void convert_list(const struct far_list *list)
{
	uint64_t out[MOST];
	size_t done;

	check(list->count > EIGHTS);
	check(!tkc_snapshot_convert(out, MOST, &done, &list->snapshot,
				    TKC_CLOCK_MONOTONIC, list->stamps,
				    list->count));
	check(done == list->count);
	check(!memcmp(out, list->times, done * sizeof(*out)));
}

/* Gaps next to powers of two, first in order and then from both ends. */
static void try_powers(const struct rate *rate)
{
	struct far_list list;

	begin(&list, rate);
	for (uint32_t power = 1; power < 60; power++)
		for (uint64_t step = 0; step < 3; step++)
			add(&list, ((uint64_t)1 << power) - 1 + step);
	convert_list(&list);
	for (uint32_t power = 1; power < 60; power++) {
		add(&list, (uint64_t)1 << power);
		add(&list, (uint64_t)1 << (60 - power));
	}
	convert_list(&list);
}

/* Gaps next to the first one whose units exceed 64 bits. */
static void try_64_bits(const struct rate *rate)
{
	uint64_t last = UINT64_MAX / rate->mult;
	struct far_list list;

	if (rate->shift == 0)
		return; /* MONOTONIC ends before */
	begin(&list, rate);
	for (uint64_t step = 0; step < 40; step++)
		add(&list, last - 20 + step);
	convert_list(&list);
}

/* The limit at each place of a list. */
static void try_limit(const struct rate *rate)
{
	uint64_t out[EIGHTS], stamps[EIGHTS], past = LAST;
	struct far_list list;
	size_t done;

	begin(&list, rate);
	/* the first reading whose time is at the limit */
	for (uint64_t bit = (uint64_t)1 << 62; bit; bit >>= 1)
		if (monotonic_after(&list, past + bit - 1 - LAST) < LIMIT)
			past += bit;
	for (size_t place = 0; place < EIGHTS; place++) {
		for (size_t i = 0; i < EIGHTS; i++) {
			stamps[i] = past - ((uint64_t)(place - i) << 23);
			out[i] = OLD;
		}
		check(tkc_snapshot_convert(out, EIGHTS, &done, &list.snapshot,
					   TKC_CLOCK_MONOTONIC, stamps,
					   EIGHTS) == TKC_RANGE);
		check(done == place);
		for (size_t i = 0; i < EIGHTS; i++)
			check(out[i] == (i < place ? (uint64_t)monotonic_after(
							     &list, stamps[i] - LAST)
						   : OLD));
	}
}

void try_far_lists(void)
{
	try_each(rates, try_powers);
	try_each(rates, try_64_bits);
	try_each(rates, try_limit);
}
