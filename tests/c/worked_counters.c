/* SPDX-License-Identifier: MIT OR Apache-2.0 */
/* Makes counters from numbers and from rates. */
#include "worked_rows.h"

struct description {
	uint32_t bits, mult, shift, code;
};

/* A rate in Hz or kHz, as its table says. */
struct rate {
	uint32_t bits;
	uint64_t rate;
	uint32_t maxsec, code, mult, shift;
};

/* Checks what a call wrote: at TKC_OK a counter that returns these numbers, and
 * otherwise nothing. */
static void check_made(const struct tkc_counter *out, uint32_t code,
			  uint32_t bits, uint32_t mult, uint32_t shift)
{
	uint32_t found[3] = { 7, 7, 7 };

	if (code) {
		check(is_old(out));
		return;
	}
	tkc_counter_numbers(&found[0], &found[1], &found[2], out);
	check(found[0] == bits && found[1] == mult && found[2] == shift);
}

static void try_numbers(const struct description *row)
{
	struct tkc_counter out;

	make_old(&out);
	check(tkc_counter_new(&out, row->bits, row->mult, row->shift) == row->code);
	check_made(&out, row->code, row->bits, row->mult, row->shift);
}

static void try_hz(const struct rate *row)
{
	struct tkc_counter out;

	make_old(&out);
	check(tkc_counter_from_hz(&out, row->bits, row->rate, row->maxsec) ==
	      row->code);
	check_made(&out, row->code, row->bits, row->mult, row->shift);
}

static void try_khz(const struct rate *row)
{
	struct tkc_counter out;

	make_old(&out);
	check(tkc_counter_from_khz(&out, row->bits, row->rate, row->maxsec) ==
	      row->code);
	check_made(&out, row->code, row->bits, row->mult, row->shift);
}

/* Checks that a line reaches a number of cycles at the fastest rate, up to half of the readings, if
 * almost a second has passed since a whole one. */
static void check_reach(const struct tkc_counter *counter, uint64_t cycles)
{
	struct tkc_snapshot snapshot;
	struct tkc_clock clock;
	struct tkc_line line;

	check(!tkc_clock_open_at(&clock, counter, 0, 1700000000, 0, 0, 999999999));
	check(!tkc_clock_set_frequency(&clock, 0, 32768000));
	check(!tkc_clock_set_tick(&clock, 0, 11000));
	tkc_clock_snapshot(&snapshot, &clock);
	check(!tkc_snapshot_line(&line, &snapshot, TKC_CLOCK_MONOTONIC));
	check(line.span > cycles || line.span == line.mask / 2 + 1);
}

static void try_finest(const struct rate *row)
{
	struct tkc_counter out;

	make_old(&out);
	check(tkc_counter_finest(&out, row->bits, row->rate, row->maxsec) == row->code);
	check_made(&out, row->code, row->bits, row->mult, row->shift);
	if (!row->code)
		check_reach(&out, row->rate * row->maxsec);
}

/* A refused row may have later faults too: its code is that of the first. */
static const struct description descriptions[] = {
	{ 32, 16777216, 24, TKC_OK },
	{ 8, 256, 0, TKC_OK },
	{ 64, 3869339906, 32, TKC_OK },
	{ 7, 255, 33, TKC_BAD_BITS },
	{ 65, 16777216, 24, TKC_BAD_BITS },
	{ 32, 255, 33, TKC_BAD_SHIFT },
	{ 32, 255, 24, TKC_BAD_MULT },
	{ 32, 3869339907, 24, TKC_BAD_ADJUST },
};

/* The numbers are those of the kernel's clocks_calc_mult_shift. */
static const struct rate rates_hz[] = {
	{ 32, 24000000, 600, TKC_OK, 699050667, 24 },
	{ 56, 24000000, 600, TKC_OK, 699050667, 24 },
	{ 64, 4294967295, 1, TKC_OK, 1000000000, 32 },
	{ 64, 4294967295, 600, TKC_OK, 3906250, 24 },
	{ 7, 0, 0, TKC_BAD_BITS, 0, 0 },
	{ 65, 4318967296, 600, TKC_BAD_BITS, 0, 0 },
	{ 32, 0, 600, TKC_BAD_RATE, 0, 0 },
	{ 32, 24000000, 601, TKC_BAD_RATE, 0, 0 },
	{ 32, 4294967296, 1, TKC_BAD_RATE, 0, 0 },
	/* 2^32 above 24 MHz */
	{ 32, 4318967296, 600, TKC_BAD_RATE, 0, 0 },
};

/* The numbers are those of a copy of clocks_calc_mult_shift and
 * __clocksource_update_freq_scale, with the scale 1000. */
static const struct rate rates_khz[] = {
	{ 32, 1, 1, TKC_OK, 2048000000, 11 },
	{ 64, 24000, 600, TKC_OK, 699050667, 24 },
	{ 64, 4491000, 1, TKC_OK, 956349877, 32 },
	{ 64, 4491000, 600, TKC_OK, 3735742, 24 },
	{ 8, 4294967295, 1, TKC_OK, 1000000, 32 },
	{ 64, 4294967295, 600, TKC_OK, 3906, 24 },
	{ 7, 0, 0, TKC_BAD_BITS, 0, 0 },
	{ 65, 4318967296, 600, TKC_BAD_BITS, 0, 0 },
	{ 32, 0, 600, TKC_BAD_RATE, 0, 0 },
	{ 64, 4491000, 0, TKC_BAD_RATE, 0, 0 },
	{ 64, 4491000, 601, TKC_BAD_RATE, 0, 0 },
	{ 64, 4294967296, 1, TKC_BAD_RATE, 0, 0 },
	/* 2^32 above 4491000 kHz */
	{ 64, 4299458296, 1, TKC_BAD_RATE, 0, 0 },
};

/* The mult is that of clocks_calc_mult_shift at the shift. The shift was found by a table of the two
 * sums in the header's comment, for each shift. */
static const struct rate rates_finest[] = {
	{ 64, 1000000000, 600, TKC_OK, 16777216, 24 },
	{ 64, 1000000000, 60, TKC_OK, 268435456, 28 },
	{ 64, 1000000000, 1, TKC_OK, 2147483648, 31 },
	{ 64, 2700000000, 600, TKC_OK, 6213784, 24 },
	{ 64, 2700000000, 60, TKC_OK, 99420539, 28 },
	{ 64, 4491000000, 600, TKC_OK, 3735742, 24 },
	{ 64, 4491000000, 60, TKC_OK, 59771867, 28 },
	{ 64, 4491000000, 1, TKC_OK, 956349877, 32 },
	{ 32, 24000000, 600, TKC_OK, 699050667, 24 },
	{ 8, 1, 600, TKC_OK, 2000000000, 1 },
	{ 56, 32768, 1, TKC_OK, 2000000000, 16 },
	{ 64, 1000000000000, 1, TKC_OK, 4294967, 32 },
	{ 64, 1000000000000, 600, TKC_OK, 16777, 24 },
	{ 64, 4294967295, 600, TKC_OK, 3906250, 24 },
	{ 7, 0, 0, TKC_BAD_BITS, 0, 0 },
	{ 65, 1000000000, 600, TKC_BAD_BITS, 0, 0 },
	{ 64, 0, 600, TKC_BAD_RATE, 0, 0 },
	{ 64, 1000000000001, 600, TKC_BAD_RATE, 0, 0 },
	{ 64, UINT64_MAX, 600, TKC_BAD_RATE, 0, 0 },
	{ 64, 1000000000, 0, TKC_BAD_RATE, 0, 0 },
	{ 64, 1000000000, 601, TKC_BAD_RATE, 0, 0 },
};

void try_counters(void)
{
	try_each(descriptions, try_numbers);
	try_each(rates_hz, try_hz);
	try_each(rates_khz, try_khz);
	try_each(rates_finest, try_finest);
}
