/* SPDX-License-Identifier: MIT OR Apache-2.0 */
/*
 * The calls of tkcore.h by the model of tests/c. A package that is linked with it instead of the
 * library runs over C code that a sanitizer instruments, so that a wrong pointer or length is
 * found.
 */
#include "model.h"

#include <string.h>

/* The contents of the header's values. */
struct clock_of {
	uint64_t words[TKC_WORDS];
	int64_t frequency, tick;
	uint32_t mult;
	uint8_t bits, shift;
};

struct snapshot_of {
	uint64_t words[TKC_WORDS];
	uint32_t mult;
	uint8_t bits, shift;
};

_Static_assert(sizeof(struct clock_of) == sizeof(struct tkc_clock), "a clock");
_Static_assert(sizeof(struct snapshot_of) == sizeof(struct tkc_snapshot), "a snapshot");

uint32_t tkc_version(void)
{
	return TKC_VERSION;
}

enum tkc_code tkc_counter_new(struct tkc_counter *out, uint32_t bits, uint32_t mult, uint32_t shift)
{
	uint32_t code = model_counter(bits, mult, shift);

	if (!code)
		*out = (struct tkc_counter){ { bits, mult, shift } };
	return code;
}

static enum tkc_code of_rate(struct tkc_counter *out, uint32_t bits, uint64_t scale, uint64_t rate,
			     uint32_t maxsec)
{
	uint32_t mult, shift, code = model_rate(bits, rate, maxsec);

	if (code)
		return code;
	model_scale(scale, rate, maxsec, &mult, &shift);
	return tkc_counter_new(out, bits, mult, shift);
}

enum tkc_code tkc_counter_from_hz(struct tkc_counter *out, uint32_t bits, uint64_t hz,
				  uint32_t maxsec)
{
	return of_rate(out, bits, 1, hz, maxsec);
}

enum tkc_code tkc_counter_from_khz(struct tkc_counter *out, uint32_t bits, uint64_t khz,
				   uint32_t maxsec)
{
	return of_rate(out, bits, 1000, khz, maxsec);
}

enum tkc_code tkc_counter_finest(struct tkc_counter *out, uint32_t bits, uint64_t hz,
				 uint32_t maxsec)
{
	uint32_t mult, shift, code = model_finest(bits, hz, maxsec, &mult, &shift);

	return code ? code : tkc_counter_new(out, bits, mult, shift);
}

void tkc_counter_numbers(uint32_t *bits, uint32_t *mult, uint32_t *shift,
			 const struct tkc_counter *counter)
{
	*bits = counter->tkc_private[0];
	*mult = counter->tkc_private[1];
	*shift = counter->tkc_private[2];
}

uint64_t tkc_counter_gap(const struct tkc_counter *counter, uint64_t from, uint64_t to)
{
	return (to - from) & UINT64_MAX >> (64 - counter->tkc_private[0]);
}

uint64_t tkc_counter_nanos(const struct tkc_counter *counter, uint64_t cycles)
{
	u128 nanos = (u128)cycles * counter->tkc_private[1] >> counter->tkc_private[2];

	return nanos < UINT64_MAX ? (uint64_t)nanos : UINT64_MAX;
}

static struct model open_model(const struct tkc_counter *counter)
{
	struct model model;

	model_open(&model, counter->tkc_private[0], counter->tkc_private[1],
		   counter->tkc_private[2]);
	return model;
}

/* Stores a model of a counter of these bits as clocks. */
static void put(struct tkc_clock *out, const struct model *model, uint32_t bits)
{
	struct clock_of clock;

	memset(&clock, 0, sizeof(clock));
	model_words(model, clock.words);
	clock.frequency = model->frequency;
	clock.tick = model->tick;
	clock.mult = model->mult;
	clock.bits = (uint8_t)bits;
	clock.shift = (uint8_t)model->shift;
	memcpy(out, &clock, sizeof(clock));
}

enum tkc_code tkc_clock_open(struct tkc_clock *out, const struct tkc_counter *counter,
			     uint64_t reading, int64_t sec, uint32_t nsec)
{
	struct model model = open_model(counter);

	if (reading > model.mask || sec < 0 || sec > 8277292035 || nsec > 999999999)
		return TKC_INVALID;
	model.last = reading;
	model.real = sec * NANOS + nsec;
	put(out, &model, counter->tkc_private[0]);
	return TKC_OK;
}

enum tkc_code tkc_clock_open_at(struct tkc_clock *out, const struct tkc_counter *counter,
				uint64_t reading, int64_t sec, uint32_t nsec, int64_t uptime_sec,
				uint32_t uptime_nsec)
{
	i128 uptime = uptime_sec * NANOS + uptime_nsec;
	struct model model;
	struct tkc_clock clock;
	struct clock_of of;

	if (tkc_clock_open(&clock, counter, reading, sec, nsec) || uptime_sec < 0 ||
	    uptime_nsec > 999999999)
		return TKC_INVALID;
	if (uptime_sec >= 946080000)
		return TKC_RANGE;
	if (uptime > sec * NANOS + nsec)
		return TKC_INVALID;
	memcpy(&of, &clock, sizeof(of));
	model = open_model(counter);
	model_from_words(&model, of.words);
	model.mono = model.raw = (u128)uptime << of.shift;
	model.real -= uptime;
	put(out, &model, counter->tkc_private[0]);
	return TKC_OK;
}

int64_t tkc_clock_frequency(const struct tkc_clock *clock)
{
	struct clock_of of;

	memcpy(&of, clock, sizeof(of));
	return of.frequency;
}

int64_t tkc_clock_tick(const struct tkc_clock *clock)
{
	struct clock_of of;

	memcpy(&of, clock, sizeof(of));
	return of.tick;
}

/* Returns the model that clocks contain. */
static struct model model_of(const struct tkc_clock *clock)
{
	struct clock_of of;
	struct model model;

	memcpy(&of, clock, sizeof(of));
	model_open(&model, of.bits, of.mult, of.shift);
	model_from_words(&model, of.words);
	model.frequency = of.frequency;
	model.tick = of.tick;
	return model;
}

enum tkc_code tkc_clock_apply(struct tkc_clock *clock, uint64_t reading, uint32_t command,
			      int64_t number, uint32_t nsec)
{
	struct model model = model_of(clock);
	uint32_t code = model_apply(&model, reading, command, number, nsec);
	struct clock_of of;

	memcpy(&of, clock, sizeof(of));
	if (!code)
		put(clock, &model, of.bits);
	return code;
}

enum tkc_code tkc_clock_change_counter(struct tkc_clock *clock, uint64_t reading,
				       const struct tkc_counter *counter, uint64_t first)
{
	struct model model = model_of(clock), other = open_model(counter);
	uint32_t code = model_change_counter(&model, reading, &other, first);

	if (!code)
		put(clock, &model, counter->tkc_private[0]);
	return code;
}

void tkc_clock_snapshot(struct tkc_snapshot *out, const struct tkc_clock *clock)
{
	struct snapshot_of snapshot;
	struct clock_of of;

	memcpy(&of, clock, sizeof(of));
	memset(&snapshot, 0, sizeof(snapshot));
	memcpy(snapshot.words, of.words, sizeof(of.words));
	snapshot.mult = of.mult;
	snapshot.bits = of.bits;
	snapshot.shift = of.shift;
	memcpy(out, &snapshot, sizeof(snapshot));
}

/* Reads a clock, or stores its time at a reading that it returns a refusal for too. The multiplier
 * of a snapshot is that of its words, which may be of no frequency and tick. So the model is moved
 * as its words say, and then read at its own last reading. */
static uint32_t get(const struct tkc_snapshot *snapshot, uint32_t clock, uint64_t reading,
		    i128 *time)
{
	bool is_coarse = clock == TKC_CLOCK_REALTIME_COARSE || clock == TKC_CLOCK_MONOTONIC_COARSE;
	struct snapshot_of of;
	struct model model;
	uint64_t gap;

	memcpy(&of, snapshot, sizeof(of));
	model_open(&model, of.bits, of.mult, of.shift);
	model_from_words(&model, of.words);
	gap = (reading - model.last) & model.mask;
	if (reading <= model.mask && !is_coarse && !model.asleep && gap <= model.mask / 2) {
		model.mono += (u128)gap * of.words[2];
		model.raw += (u128)gap * of.mult;
	}
	model.last = reading;
	return model_get(&model, clock, reading, time);
}

static uint64_t word(const struct tkc_snapshot *snapshot, int place)
{
	struct snapshot_of of;

	memcpy(&of, snapshot, sizeof(of));
	return of.words[place];
}

enum tkc_code tkc_snapshot_get(struct tkc_time *out, const struct tkc_snapshot *snapshot,
			       uint32_t clock, uint64_t reading)
{
	i128 time;
	uint32_t code = get(snapshot, clock, reading, &time);

	if (!code)
		*out = (struct tkc_time){ (int64_t)(time / NANOS), (uint32_t)(time % NANOS), 0 };
	return code;
}

enum tkc_code tkc_snapshot_coarse(struct tkc_time *out, const struct tkc_snapshot *snapshot,
				  uint32_t clock)
{
	return tkc_snapshot_get(out, snapshot, clock, word(snapshot, 1));
}

/* Tests a step as model_apply does, but by the multiplier of the words. */
enum tkc_code tkc_snapshot_step(struct tkc_time *before, struct tkc_time *after,
				const struct tkc_snapshot *snapshot, uint64_t reading, int64_t sec,
				uint32_t nsec)
{
	uint64_t last = word(snapshot, 1), mask;
	struct tkc_time time;
	i128 mono, real, stepped;
	struct snapshot_of of;

	memcpy(&of, snapshot, sizeof(of));
	mask = UINT64_MAX >> (64 - of.bits);
	if (of.words[7] % 2)
		return TKC_ASLEEP;
	if (reading > mask || nsec > 999999999)
		return TKC_INVALID;
	if (((reading - last) & mask) > mask / 2)
		return TKC_BEHIND;
	if (get(snapshot, TKC_CLOCK_MONOTONIC, reading, &mono) ||
	    tkc_snapshot_get(&time, snapshot, TKC_CLOCK_BOOTTIME, reading))
		return TKC_RANGE;
	real = mono + of.words[5];
	stepped = real + sec * NANOS + nsec;
	if (stepped < mono || stepped >= 8277292036 * NANOS)
		return TKC_INVALID;
	*before = (struct tkc_time){ (int64_t)(real / NANOS), (uint32_t)(real % NANOS), 0 };
	*after = (struct tkc_time){ (int64_t)(stepped / NANOS), (uint32_t)(stepped % NANOS), 0 };
	return TKC_OK;
}

/* Returns the code of a time that a clock reaches at none of the searched readings, the last of
 * which is `far`. */
static enum tkc_code unreached(const struct tkc_snapshot *snapshot, uint32_t clock, uint64_t far,
			       i128 wanted)
{
	bool is_coarse = clock == TKC_CLOCK_REALTIME_COARSE || clock == TKC_CLOCK_MONOTONIC_COARSE;
	i128 end = (clock == TKC_CLOCK_MONOTONIC ? 946080000 : 9223372036) * NANOS, time;
	struct snapshot_of of;

	memcpy(&of, snapshot, sizeof(of));
	if (is_coarse || of.words[7] % 2 || wanted >= end)
		return TKC_NEVER;
	return get(snapshot, clock, far, &time) ? TKC_NEVER : TKC_FURTHER;
}

enum tkc_code tkc_snapshot_reading(uint64_t *out, const struct tkc_snapshot *snapshot,
				   uint32_t clock, int64_t sec, uint32_t nsec)
{
	i128 wanted = sec * NANOS + nsec, time;
	uint64_t least = 0, most, mask, last;
	struct snapshot_of of;

	memcpy(&of, snapshot, sizeof(of));
	mask = UINT64_MAX >> (64 - of.bits);
	last = of.words[1];
	most = mask / 2;
	if (get(snapshot, clock, last, &time) == TKC_BAD_CLOCK)
		return TKC_BAD_CLOCK;
	get(snapshot, clock, (last + most) & mask, &time);
	if (time < wanted)
		return unreached(snapshot, clock, (last + most) & mask, wanted);
	while (least < most) {
		uint64_t middle = least + (most - least) / 2;

		get(snapshot, clock, (last + middle) & mask, &time);
		if (time >= wanted)
			most = middle;
		else
			least = middle + 1;
	}
	if (get(snapshot, clock, (last + least) & mask, &time))
		return TKC_NEVER;
	*out = (last + least) & mask;
	return TKC_OK;
}

enum tkc_code tkc_snapshot_convert(uint64_t *out, size_t room, size_t *done,
				   const struct tkc_snapshot *snapshot, uint32_t clock,
				   const uint64_t *stamps, size_t count)
{
	uint32_t code;
	i128 time;

	if (get(snapshot, clock, 0, &time) == TKC_BAD_CLOCK)
		return TKC_BAD_CLOCK;
	if (room < count)
		return TKC_BAD_ROOM;
	for (*done = 0; *done < count; ++*done) {
		code = get(snapshot, clock, stamps[*done], &time);
		if (code)
			return code;
		out[*done] = (uint64_t)time;
	}
	return TKC_OK;
}

uint64_t tkc_snapshot_front(const struct tkc_snapshot *snapshot)
{
	return word(snapshot, 0);
}

uint32_t tkc_snapshot_tai(const struct tkc_snapshot *snapshot)
{
	return (uint32_t)(word(snapshot, 7) / 2);
}

uint32_t tkc_snapshot_asleep(const struct tkc_snapshot *snapshot)
{
	return (uint32_t)(word(snapshot, 7) % 2);
}

void tkc_snapshot_words(uint64_t words[TKC_WORDS], const struct tkc_snapshot *snapshot)
{
	memcpy(words, snapshot, TKC_WORDS * sizeof(*words));
}

enum tkc_code tkc_snapshot_from_words(struct tkc_snapshot *out, const struct tkc_counter *counter,
				      const uint64_t words[TKC_WORDS])
{
	struct model model = open_model(counter);
	struct snapshot_of snapshot;

	if (!model_from_words(&model, words))
		return TKC_BAD_WORDS;
	memset(&snapshot, 0, sizeof(snapshot));
	memcpy(snapshot.words, words, sizeof(snapshot.words));
	snapshot.mult = model.mult;
	snapshot.bits = (uint8_t)counter->tkc_private[0];
	snapshot.shift = (uint8_t)model.shift;
	memcpy(out, &snapshot, sizeof(snapshot));
	return TKC_OK;
}

void tkc_clock_words(uint64_t words[TKC_WORDS], int64_t *frequency, int64_t *tick,
		     const struct tkc_clock *clock)
{
	struct clock_of of;

	memcpy(&of, clock, sizeof(of));
	memcpy(words, of.words, sizeof(of.words));
	*frequency = of.frequency;
	*tick = of.tick;
}

enum tkc_code tkc_clock_from_words(struct tkc_clock *out, const struct tkc_counter *counter,
				   const uint64_t words[TKC_WORDS], int64_t frequency, int64_t tick)
{
	struct model model = open_model(counter);

	if (!model_from_words(&model, words))
		return TKC_BAD_WORDS;
	model.frequency = frequency;
	model.tick = tick;
	if (!model_is_running(&model, words))
		return TKC_BAD_WORDS;
	put(out, &model, counter->tkc_private[0]);
	return TKC_OK;
}

void tkc_clock_save(uint64_t words[TKC_SAVED_WORDS], const struct tkc_clock *clock)
{
	struct clock_of of;

	memcpy(&of, clock, sizeof(of));
	memcpy(words, of.words, sizeof(of.words));
	words[10] = of.bits;
	words[11] = of.mult;
	words[12] = of.shift;
	words[13] = (uint64_t)of.frequency;
	words[14] = (uint64_t)of.tick;
}

enum tkc_code tkc_clock_load(struct tkc_clock *out, const uint64_t words[TKC_SAVED_WORDS])
{
	struct tkc_counter counter;

	if ((words[10] | words[11] | words[12]) >> 32 ||
	    tkc_counter_new(&counter, (uint32_t)words[10], (uint32_t)words[11],
			    (uint32_t)words[12]))
		return TKC_BAD_WORDS;
	return tkc_clock_from_words(out, &counter, words, (int64_t)words[13], (int64_t)words[14]);
}

void tkc_snapshot_counter(struct tkc_counter *out, const struct tkc_snapshot *snapshot)
{
	struct snapshot_of of;

	memcpy(&of, snapshot, sizeof(of));
	*out = (struct tkc_counter){ { of.bits, of.mult, of.shift } };
}
