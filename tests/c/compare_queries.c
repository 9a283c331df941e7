/* SPDX-License-Identifier: MIT OR Apache-2.0 */
/* Compares clocks at their last command, and steps that aren't made, with the model. */
#include "compare_model.h"
#include "random.h"

#include <string.h>

#define SETTABLE_END (8277292036 * NANOS)

static i128 ns_of(const struct tkc_time *time)
{
	CHECK(time->sec >= 0 && time->nsec < 1000000000 && !time->padding);
	return time->sec * NANOS + time->nsec;
}

static void compare_coarse(const struct tkc_snapshot *snapshot, const struct model *model)
{
	struct tkc_time time = { 98, 97, 96 }, before = time;
	uint32_t clock = (uint32_t)(below(9) ? below(13) : some()), code;
	i128 value;

	code = model_get(model, clock, model->last, &value);
	CHECK(tkc_snapshot_coarse(&time, snapshot, clock) == code);
	CHECK(code ? !memcmp(&time, &before, sizeof(time)) : ns_of(&time) == value);
}

/* Returns an amount that moves REALTIME to MONOTONIC, to the end of what may be set, or anywhere. */
static i128 some_amount(const struct model *model, uint64_t reading)
{
	i128 real, mono, target = (i128)below(8277292036) * NANOS;

	if (!below(4) || model_get(model, TKC_CLOCK_REALTIME, reading, &real) ||
	    model_get(model, TKC_CLOCK_MONOTONIC, reading, &mono))
		return (int64_t)some() * NANOS;
	if (below(2))
		target = (below(2) ? mono : SETTABLE_END) + (int64_t)below(5) - 2;
	return target - real;
}

void compare_queries(const struct tkc_snapshot *snapshot, const struct model *model)
{
	uint64_t reading = reading_near(model);
	i128 amount = some_amount(model, reading), value;
	int64_t sec = (int64_t)(amount / NANOS) - (amount % NANOS < 0);
	uint32_t nsec = (uint32_t)(below(8) ? amount - sec * NANOS : (i128)some()), code;
	struct tkc_time before = { 98, 97, 96 }, after = { 95, 94, 93 }, old[2] = { before, after };
	struct model stepped = *model;

	compare_coarse(snapshot, model);
	stepped.front = 0; /* a test counts no command */
	code = model_apply(&stepped, reading, TKC_CMD_STEP, sec, nsec);
	CHECK(tkc_snapshot_step(&before, &after, snapshot, reading, sec, nsec) == code);
	if (code) {
		CHECK(!memcmp(&before, &old[0], sizeof(before)));
		CHECK(!memcmp(&after, &old[1], sizeof(after)));
		return;
	}
	CHECK(!model_get(&stepped, TKC_CLOCK_REALTIME, reading, &value));
	CHECK(ns_of(&after) == value);
	CHECK(ns_of(&before) == value - (sec * NANOS + nsec));
}
