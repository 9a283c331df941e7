/* SPDX-License-Identifier: MIT OR Apache-2.0 */
/* Compares the lines of clocks with the model: their numbers, and their values up to their ends. */
#include "compare_model.h"
#include "random.h"

#include <string.h>

static bool is_coarse(uint32_t clock)
{
	return clock == TKC_CLOCK_REALTIME_COARSE || clock == TKC_CLOCK_MONOTONIC_COARSE;
}

/* Returns what a cycle adds to a clock, in 2^-shift ns. */
static uint32_t slope(const struct model *model, uint32_t clock)
{
	uint64_t words[TKC_WORDS];

	model_words(model, words);
	if (model->asleep || is_coarse(clock))
		return 0;
	return clock == TKC_CLOCK_MONOTONIC_RAW ? model->mult : (uint32_t)words[2];
}

/* Returns a clock at the last reading, in 2^-shift ns. */
static u128 units_at_last(const struct model *model, uint32_t clock)
{
	i128 offset = 0;

	switch (clock) {
	case TKC_CLOCK_REALTIME:
	case TKC_CLOCK_REALTIME_COARSE: offset = model->real; break;
	case TKC_CLOCK_BOOTTIME: offset = model->boot; break;
	case TKC_CLOCK_TAI: offset = model->real + model->tai * NANOS; break;
	}
	return (clock == TKC_CLOCK_MONOTONIC_RAW ? model->raw : model->mono) +
	       ((u128)offset << model->shift);
}

/* Reads a clock by its line and by the model. */
static void read_line(const struct tkc_line *line, const struct model *model, uint32_t clock,
		      uint64_t reading)
{
	uint64_t cycles = (reading - model->last) & model->mask, nanos = 99;
	struct tkc_time time = { .sec = 98, .nsec = 97, .padding = 96 }, before = time;
	i128 value;
	bool is_far, is_read;

	is_far = cycles > model->mask / 2 ||
		 ((u128)line->frac + (u128)cycles * line->mult) >> 64;
	is_read = !model_get(model, clock, reading, &value) && !is_far;
	CHECK(tkc_line_get(&time, line, reading) == is_read);
	CHECK(tkc_line_ns(&nanos, line, reading) == is_read);
	if (is_read)
		CHECK(time.sec * NANOS + time.nsec == value && time.nsec < 1000000000 &&
		      !time.padding && (i128)nanos == value);
	else
		CHECK(!memcmp(&time, &before, sizeof(time)) && nanos == 99);
}

void compare_line(const struct tkc_snapshot *snapshot, const struct model *model, uint32_t clock)
{
	struct tkc_line line, before;
	u128 second = (u128)NANOS << model->shift, units;
	i128 value;

	memset(&line, 7, sizeof(line));
	before = line;
	if (model_get(model, clock, model->last, &value) == TKC_BAD_CLOCK) {
		CHECK(tkc_snapshot_line(&line, snapshot, clock) == TKC_BAD_CLOCK);
		CHECK(!memcmp(&line, &before, sizeof(line)));
		return;
	}
	CHECK(tkc_snapshot_line(&line, snapshot, clock) == TKC_OK);
	units = units_at_last(model, clock);
	CHECK(line.last == model->last && line.mask == model->mask && line.shift == model->shift);
	CHECK(line.mult == slope(model, clock));
	CHECK(line.sec == units / second && line.frac == units % second);
	CHECK(line.span <= model->mask / 2 + 1);
	read_line(&line, model, clock, some());
	for (int i = 0; i < 4; i++) {
		read_line(&line, model, clock, (model->last + (any() >> below(64))) & model->mask);
		read_line(&line, model, clock, (model->last + line.span + below(5) - 3) & model->mask);
	}
}
