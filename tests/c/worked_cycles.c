/* SPDX-License-Identifier: MIT OR Apache-2.0 */
/* Computes with the cycles of counters. */
#include "worked_rows.h"

struct gap {
	uint32_t bits;
	uint64_t from, to, gap;
};

struct nanos {
	uint32_t mult, shift;
	uint64_t cycles, nanos;
};

static const struct gap gaps[] = {
	{ 32, 1000, 1000, 0 },
	{ 32, 1000, 3500, 2500 },
	{ 32, 4294967295, 0, 1 },
	{ 32, 1, 0, 4294967295 },
	{ 64, 18446744073709551615U, 9, 10 },
	{ 64, 0, 18446744073709551615U, 18446744073709551615U },
	{ 8, 250, 5, 11 },
	/* bits above the counter's don't count */
	{ 8, 506, 1029, 11 },
	{ 32, 4294968296, 3500, 2500 },
};

static const struct nanos all_nanos[] = {
	{ 16777216, 24, 0, 0 },
	{ 16777216, 24, 12345, 12345 },
	{ 16777216, 24, 18446744073709551615U, 18446744073709551615U },
	/* 24 MHz: 699050667 / 2^24 ns a cycle */
	{ 699050667, 24, 1, 41 },
	{ 699050667, 24, 24, 1000 },
	{ 699050667, 24, 24000000, 1000000000 },
	/* 2^32 cycles are 178,956,970,752 ns: 2^32 * 699050667 / 2^24 = 256 * 699050667 */
	{ 699050667, 24, 4294967296, 178956970752 },
	{ 699050667, 24, 4294967297, 178956970793 },
	/* the most cycles that fit at 2 ns a cycle, and one more */
	{ 33554432, 24, 9223372036854775807U, 18446744073709551614U },
	{ 33554432, 24, 9223372036854775808U, 18446744073709551615U },
	{ 33554432, 24, 18446744073709551615U, 18446744073709551615U },
	/* the least and the greatest length of a cycle */
	{ 256, 32, 16777215, 0 },
	{ 256, 32, 16777216, 1 },
	{ 256, 32, 18446744073709551615U, 1099511627775 },
	{ 3869339906, 0, 4767413698, 18446744070082432388U },
	{ 3869339906, 0, 4767413699, 18446744073709551615U },
};

static void try_gap(const struct gap *row)
{
	struct tkc_counter counter;

	check(!tkc_counter_new(&counter, row->bits, 16777216, 24));
	check(tkc_counter_gap(&counter, row->from, row->to) == row->gap);
}

static void try_nanos(const struct nanos *row)
{
	struct tkc_counter counter;

	check(!tkc_counter_new(&counter, 64, row->mult, row->shift));
	check(tkc_counter_nanos(&counter, row->cycles) == row->nanos);
}

void try_cycles(void)
{
	try_each(gaps, try_gap);
	try_each(all_nanos, try_nanos);
}
