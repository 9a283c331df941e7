/* SPDX-License-Identifier: MIT OR Apache-2.0 */
#include "model.h"

#include <string.h>

#define CLOCK_END (9223372036 * NANOS)
#define MONOTONIC_END (946080000 * NANOS)
#define SETTABLE_END (8277292036 * NANOS)
#define FASTEST 32768000

static uint64_t multiplier(const struct model *model, int64_t frequency, int64_t tick)
{
	if (frequency > FASTEST)
		frequency = FASTEST;
	if (frequency < -FASTEST)
		frequency = -FASTEST;
	return (uint64_t)((i128)model->mult * (tick * 6553600 + frequency) / 65536000000);
}

uint32_t model_counter(uint32_t bits, uint32_t mult, uint32_t shift)
{
	if (bits < 8 || bits > 64)
		return TKC_BAD_BITS;
	if (shift > 32)
		return TKC_BAD_SHIFT;
	if (mult < 256)
		return TKC_BAD_MULT;
	return (mult + (uint64_t)mult * 11 / 100) >> 32 ? TKC_BAD_ADJUST : TKC_OK;
}

uint32_t model_rate(uint32_t bits, uint64_t rate, uint32_t maxsec)
{
	if (bits < 8 || bits > 64)
		return TKC_BAD_BITS;
	return !rate || rate >> 32 || !maxsec || maxsec > 600 ? TKC_BAD_RATE : TKC_OK;
}

void model_scale(uint64_t scale, uint64_t rate, uint32_t maxsec, uint32_t *mult, uint32_t *shift)
{
	u128 exact = 0, limit = (u128)1 << 32;

	while (limit > 1 && maxsec * scale * rate > (UINT64_MAX / (uint64_t)limit))
		limit /= 2;
	for (*shift = 32; *shift; --*shift) {
		exact = (((u128)(1000000000 / scale) << *shift) + rate / 2) / rate;
		if (exact < limit)
			break;
	}
	if ((exact + exact * 11 / 100) >> 32) {
		exact /= 2;
		--*shift;
	}
	*mult = (uint32_t)exact;
}

uint32_t model_finest(uint32_t bits, uint64_t hz, uint32_t maxsec, uint32_t *mult, uint32_t *shift)
{
	u128 cycles = (u128)hz * maxsec, exact, most;

	if (bits < 8 || bits > 64)
		return TKC_BAD_BITS;
	if (!hz || hz > 1000000000000 || !maxsec || maxsec > 600)
		return TKC_BAD_RATE;
	*shift = 33;
	do {
		--*shift;
		exact = (((u128)1000000000 << *shift) + hz / 2) / hz;
		most = exact + exact * 11 / 100;
	} while (most >> 32 || ((u128)1000000000 << *shift) + cycles * most > (u128)1 << 64);
	*mult = (uint32_t)exact;
	return TKC_OK;
}

void model_open(struct model *model, uint32_t bits, uint32_t mult, uint32_t shift)
{
	memset(model, 0, sizeof(*model));
	model->mask = UINT64_MAX >> (64 - bits);
	model->mult = mult;
	model->shift = shift;
	model->tick = 10000;
}

static uint64_t gap(const struct model *model, uint64_t reading)
{
	return (reading - model->last) & model->mask;
}

static bool is_behind(const struct model *model, uint64_t reading)
{
	return gap(model, reading) > model->mask / 2;
}

static void forward(struct model *model, uint64_t reading)
{
	uint64_t mult = multiplier(model, model->frequency, model->tick);

	model->mono += (u128)gap(model, reading) * mult;
	model->raw += (u128)gap(model, reading) * model->mult;
	model->last = reading;
}

static i128 mono_of(const struct model *model)
{
	return (i128)(model->mono >> model->shift);
}

static bool is_number_invalid(uint32_t command, int64_t number, uint32_t nsec)
{
	switch (command) {
	case TKC_CMD_SET_TIME:
		return number < 0 || number > 8277292035 || nsec > 999999999;
	case TKC_CMD_STEP:
		return nsec > 999999999;
	case TKC_CMD_TICK:
		return number < 9000 || number > 11000;
	case TKC_CMD_TAI_OFFSET:
		return number < 0 || number > 100000;
	case TKC_CMD_LEAP:
		return (number != -1 && number != 1) || nsec > 100000;
	case TKC_CMD_RESUME:
		return number < 0 || number > 9223372035 || nsec > 999999999;
	default:
		return false;
	}
}

/* Gives the model the effect of a command on its settings. */
static void change(struct model *model, uint32_t command, int64_t number, uint32_t nsec)
{
	i128 amount = number * NANOS + nsec;

	switch (command) {
	case TKC_CMD_SET_TIME:
		model->real = amount - mono_of(model);
		break;
	case TKC_CMD_STEP:
		model->real += amount;
		break;
	case TKC_CMD_FREQ:
		model->frequency = number;
		break;
	case TKC_CMD_TICK:
		model->tick = number;
		break;
	case TKC_CMD_TAI_OFFSET:
		model->tai = number;
		break;
	case TKC_CMD_LEAP:
		model->real += number * NANOS;
		model->tai = nsec;
		break;
	case TKC_CMD_SUSPEND:
		model->asleep = true;
		break;
	case TKC_CMD_RESUME:
		model->asleep = false;
		model->boot += amount;
		model->real += amount;
		break;
	default:
		break;
	}
}

uint32_t model_apply(struct model *model, uint64_t reading, uint32_t command, int64_t number,
		     uint32_t nsec)
{
	struct model next = *model;
	bool sets = command == TKC_CMD_SET_TIME || command == TKC_CMD_STEP ||
		    command == TKC_CMD_LEAP;
	i128 real;

	if (command > TKC_CMD_LEAP)
		return TKC_BAD_COMMAND;
	if (model->front >= INT64_MAX)
		return TKC_FULL;
	if (model->asleep != (command == TKC_CMD_RESUME))
		return model->asleep ? TKC_ASLEEP : TKC_AWAKE;
	if (reading > model->mask || is_number_invalid(command, number, nsec))
		return TKC_INVALID;
	if (command == TKC_CMD_RESUME)
		next.last = reading;
	else if (is_behind(model, reading))
		return TKC_BEHIND;
	else
		forward(&next, reading);
	change(&next, command, number, nsec);
	real = mono_of(&next) + next.real;
	if (mono_of(&next) >= MONOTONIC_END || mono_of(&next) + next.boot >= CLOCK_END)
		return TKC_RANGE;
	if (!sets && (real >= CLOCK_END || real + next.tai * NANOS >= CLOCK_END))
		return TKC_RANGE;
	if (sets && (next.real < 0 || real >= SETTABLE_END))
		return TKC_INVALID;
	next.front++;
	*model = next;
	return TKC_OK;
}

/* Returns whether MONOTONIC_RAW is no further ahead of MONOTONIC than the slowest rate can bring
 * it. */
static bool is_rated(const struct model *model)
{
	return model->raw * multiplier(model, -FASTEST, 9000) <= model->mono * model->mult;
}

static u128 rescaled(u128 units, uint32_t from, uint32_t to)
{
	return from <= to ? units << (to - from) : units >> (from - to);
}

uint32_t model_change_counter(struct model *model, uint64_t reading, const struct model *other,
			      uint64_t first)
{
	struct model next = *model;
	uint32_t code = TKC_OK;

	if (model->front >= INT64_MAX)
		return TKC_FULL;
	if (first > other->mask || reading > model->mask)
		return TKC_INVALID;
	if (model->asleep)
		next.front++;
	else
		code = model_apply(&next, reading, TKC_CMD_UPDATE, 0, 0);
	if (code)
		return code;
	next.mask = other->mask;
	next.mult = other->mult;
	next.shift = other->shift;
	next.last = first;
	next.mono = rescaled(next.mono, model->shift, next.shift);
	next.raw = rescaled(next.raw, model->shift, next.shift);
	if (!is_rated(&next))
		return TKC_RANGE;
	*model = next;
	return TKC_OK;
}

uint32_t model_get(const struct model *model, uint32_t clock, uint64_t reading, i128 *time)
{
	struct model at = *model;
	bool coarse = clock == TKC_CLOCK_REALTIME_COARSE || clock == TKC_CLOCK_MONOTONIC_COARSE;
	i128 end = CLOCK_END;

	if (reading <= model->mask && !coarse && !model->asleep && !is_behind(model, reading))
		forward(&at, reading);
	*time = mono_of(&at);
	switch (clock) {
	case TKC_CLOCK_MONOTONIC:
	case TKC_CLOCK_MONOTONIC_COARSE:
		end = MONOTONIC_END;
		break;
	case TKC_CLOCK_MONOTONIC_RAW:
		*time = (i128)(at.raw >> at.shift);
		break;
	case TKC_CLOCK_REALTIME:
	case TKC_CLOCK_REALTIME_COARSE:
		*time += at.real;
		break;
	case TKC_CLOCK_BOOTTIME:
		*time += at.boot;
		break;
	case TKC_CLOCK_TAI:
		*time += at.real + at.tai * NANOS;
		break;
	default:
		return TKC_BAD_CLOCK;
	}
	if (reading > model->mask)
		return TKC_INVALID;
	return *time >= end ? TKC_RANGE : TKC_OK;
}

/* Returns whether a read this number of cycles after the last reading gives the time or a later one.
 * A clock never goes back there. So after the first such number of cycles every read does, until the
 * clock is at its limit. */
static bool has_reached(const struct model *model, uint32_t clock, uint64_t cycles, i128 wanted)
{
	i128 time;

	model_get(model, clock, (model->last + cycles) & model->mask, &time);
	return time >= wanted;
}

/* Returns the code of a time that a clock reaches at none of the readings that are searched. At the
 * last of them it is later than at the others. */
static uint32_t unreached(const struct model *model, uint32_t clock, i128 wanted)
{
	bool coarse = clock == TKC_CLOCK_REALTIME_COARSE || clock == TKC_CLOCK_MONOTONIC_COARSE;
	i128 end = clock == TKC_CLOCK_MONOTONIC ? MONOTONIC_END : CLOCK_END, time;
	uint64_t last = (model->last + model->mask / 2) & model->mask;

	if (model->asleep || coarse || wanted >= end)
		return TKC_NEVER;
	return model_get(model, clock, last, &time) ? TKC_NEVER : TKC_FURTHER;
}

uint32_t model_reading(const struct model *model, uint32_t clock, int64_t sec, uint32_t nsec,
		       uint64_t *reading)
{
	uint64_t least = 0, most = model->mask / 2;
	i128 wanted = sec * NANOS + nsec, time;

	if (model_get(model, clock, model->last, &time) == TKC_BAD_CLOCK)
		return TKC_BAD_CLOCK;
	if (!has_reached(model, clock, most, wanted))
		return unreached(model, clock, wanted);
	while (least < most) {
		uint64_t middle = least + (most - least) / 2;

		if (has_reached(model, clock, middle, wanted))
			most = middle;
		else
			least = middle + 1;
	}
	*reading = (model->last + least) & model->mask;
	return model_get(model, clock, *reading, &time) ? TKC_NEVER : TKC_OK;
}

void model_words(const struct model *model, uint64_t words[TKC_WORDS])
{
	u128 second = (u128)1000000000 << model->shift;

	words[0] = model->front;
	words[1] = model->last;
	words[2] = multiplier(model, model->frequency, model->tick);
	words[3] = (uint64_t)(model->mono % second);
	words[4] = (uint64_t)(model->mono / second);
	words[5] = (uint64_t)model->real;
	words[6] = (uint64_t)model->boot;
	words[7] = (uint64_t)model->tai * 2 + model->asleep;
	words[8] = (uint64_t)(model->raw % second);
	words[9] = (uint64_t)(model->raw / second);
}

bool model_from_words(struct model *model, const uint64_t words[TKC_WORDS])
{
	u128 second = (u128)1000000000 << model->shift;
	i128 mono;

	model->front = words[0];
	model->last = words[1];
	model->mono = words[3] + words[4] * second;
	model->real = words[5];
	model->boot = words[6];
	model->tai = (int64_t)(words[7] / 2);
	model->asleep = words[7] % 2;
	model->raw = words[8] + words[9] * second;
	mono = mono_of(model);
	return words[1] <= model->mask && words[2] &&
	       words[2] <= model->mult + (uint64_t)model->mult * 11 / 100 && words[3] < second &&
	       words[4] < 946080000 && words[7] <= 200001 && words[8] < second &&
	       words[9] < 1060000000 && mono + model->boot < CLOCK_END &&
	       mono + model->real < CLOCK_END &&
	       mono + model->real + model->tai * NANOS < CLOCK_END;
}

bool model_is_running(const struct model *model, const uint64_t words[TKC_WORDS])
{
	return model->tick >= 9000 && model->tick <= 11000 &&
	       words[2] == multiplier(model, model->frequency, model->tick) && is_rated(model);
}
