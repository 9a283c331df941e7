/* SPDX-License-Identifier: MIT OR Apache-2.0 */
/*
 * Compares each call of the library with the model of model.h, for random counters, commands,
 * changes of counter, reads and words.
 *
 *     compare_model CALLS [SEED]
 */
#include "compare_model.h"
#include "random.h"

#include <inttypes.h>
#include <stdio.h>
#include <stdlib.h>
#include <string.h>

static uint64_t calls;

void check(bool holds, const char *condition, const char *file, int line)
{
	calls++;
	if (holds)
		return;
	fprintf(stderr, "compare_model: %s, line %d, after %" PRIu64 " checks: %s\n", file, line,
		calls, condition);
	exit(EXIT_FAILURE);
}

static void try_reads(const struct tkc_clock *clock, const struct model *model)
{
	enum { COUNT = 12 };
	uint64_t stamps[COUNT], out[COUNT];
	uint32_t id = (uint32_t)below(13), code = TKC_OK, expected;
	struct tkc_snapshot snapshot;
	struct tkc_time time;
	size_t done = 99, i;
	i128 value;

	tkc_clock_snapshot(&snapshot, clock);
	CHECK(tkc_snapshot_front(&snapshot) == model->front &&
	      tkc_snapshot_tai(&snapshot) == model->tai &&
	      tkc_snapshot_asleep(&snapshot) == model->asleep);
	for (i = 0; i < COUNT; i++)
		stamps[i] = reading_near(model);
	expected = tkc_snapshot_convert(out, COUNT, &done, &snapshot, id, stamps, COUNT);
	for (i = 0; i < COUNT && !code; i++) {
		code = model_get(model, id, stamps[i], &value);
		CHECK(tkc_snapshot_get(&time, &snapshot, id, stamps[i]) == code);
		if (code)
			break;
		CHECK(time.sec * NANOS + time.nsec == value && time.nsec < 1000000000);
		CHECK((i128)out[i] == value);
	}
	CHECK(expected == code);
	CHECK(done == (code == TKC_BAD_CLOCK ? 99 : i));
	compare_line(&snapshot, model, id);
	compare_queries(&snapshot, model);
}

/* Returns a time in ns near one that the clock reads, or any other. */
static i128 time_near(const struct model *model, uint32_t id)
{
	i128 time;

	if (!below(4) || model_get(model, id, reading_near(model), &time))
		return (int64_t)some() * NANOS + (int64_t)below(1000000000);
	return time + (int64_t)below(5) - 2;
}

/* Finds the readings of times. */
static void try_readings(const struct tkc_clock *clock, const struct model *model)
{
	struct tkc_snapshot snapshot;

	tkc_clock_snapshot(&snapshot, clock);
	for (int i = 0; i < 4; i++) {
		uint32_t id = (uint32_t)below(13), nsec, code;
		i128 time = time_near(model, id);
		uint64_t reading = 99, expected = 99;
		int64_t sec = (int64_t)(time / NANOS) - (time % NANOS < 0);

		nsec = (uint32_t)(time - sec * NANOS);
		if (!below(4) && sec > INT64_MIN + 4) {
			sec -= 3;
			nsec += 3000000000;
		}
		code = model_reading(model, id, sec, nsec, &expected);
		CHECK(tkc_snapshot_reading(&reading, &snapshot, id, sec, nsec) == code);
		CHECK(reading == (code ? 99 : expected));
	}
}

/* Loads clocks from words and their counter, whose numbers may have more bits. */
static void try_load(const struct tkc_counter *counter, const uint64_t words[TKC_WORDS],
		     const struct model *restored, bool is_running)
{
	uint64_t saved[TKC_SAVED_WORDS], found[TKC_SAVED_WORDS];
	uint32_t bits, mult, shift;
	struct tkc_clock other;

	tkc_counter_numbers(&bits, &mult, &shift, counter);
	memcpy(saved, words, TKC_WORDS * sizeof(*words));
	saved[10] = bits;
	saved[11] = mult;
	saved[12] = shift;
	saved[13] = (uint64_t)restored->frequency;
	saved[14] = (uint64_t)restored->tick;
	if (!below(8)) {
		saved[10 + below(3)] += (1 + below(5)) << 32;
		is_running = false;
	}
	CHECK(tkc_clock_load(&other, saved) == (is_running ? TKC_OK : TKC_BAD_WORDS));
	if (is_running) {
		tkc_clock_save(found, &other);
		CHECK(!memcmp(found, saved, sizeof(saved)));
	}
}

/* Restores clocks from their words, some of which are changed. */
static void try_words(const struct tkc_counter *counter, const struct tkc_clock *clock,
		      const struct model *model)
{
	uint64_t words[TKC_WORDS], found[TKC_WORDS];
	struct model restored = *model;
	struct tkc_snapshot snapshot;
	struct tkc_clock other;
	bool is_snapshot;

	tkc_clock_words(words, &restored.frequency, &restored.tick, clock);
	if (below(2))
		words[below(TKC_WORDS)] = some();
	if (!below(4))
		words[1 + below(9)] += below(5) - 2;
	if (!below(8))
		restored.frequency = (int64_t)some();
	if (!below(8))
		restored.tick += (int64_t)below(3) - 1;
	is_snapshot = model_from_words(&restored, words);
	CHECK(tkc_snapshot_from_words(&snapshot, counter, words) ==
	      (is_snapshot ? TKC_OK : TKC_BAD_WORDS));
	if (is_snapshot) {
		tkc_snapshot_words(found, &snapshot);
		CHECK(!memcmp(found, words, sizeof(words)));
	}
	is_snapshot = is_snapshot && model_is_running(&restored, words);
	CHECK(tkc_clock_from_words(&other, counter, words, restored.frequency, restored.tick) ==
	      (is_snapshot ? TKC_OK : TKC_BAD_WORDS));
	try_load(counter, words, &restored, is_snapshot);
	if (is_snapshot) {
		compare_words(&other, &restored);
		try_command(&other, &restored);
	}
}

/* Opens clocks with an uptime at a reading. The model is of clocks that were opened there. */
static void try_open_at(const struct tkc_counter *counter, const struct model *opened,
			uint64_t reading, int64_t sec, uint32_t nsec)
{
	int64_t up = (int64_t)(below(8) ? below(946080001) : some());
	uint32_t up_nsec = (uint32_t)(below(8) ? below(1000000000) : some());
	struct model model = *opened;
	struct tkc_clock clock;
	uint32_t code = TKC_OK;
	i128 uptime = up * NANOS + up_nsec;

	if (up < 0 || up_nsec >= 1000000000)
		code = TKC_INVALID;
	else if (up >= 946080000)
		code = TKC_RANGE;
	else if (sec * NANOS + nsec < uptime)
		code = TKC_INVALID;
	CHECK(tkc_clock_open_at(&clock, counter, reading, sec, nsec, up, up_nsec) == code);
	if (code)
		return;
	model.mono = model.raw = (u128)uptime << model.shift;
	model.real -= uptime;
	compare_words(&clock, &model);
	try_command(&clock, &model);
	try_reads(&clock, &model);
}

static void round_of_calls(void)
{
	struct tkc_counter counter;
	struct numbers numbers;
	struct tkc_clock clock;
	struct model model;
	int64_t sec = (int64_t)(below(8) ? below(8277292036) : some());
	uint32_t nsec = (uint32_t)(below(8) ? below(1000000000) : some());
	uint64_t reading = some();
	bool is_valid;

	for (int i = 0; i < 100; i++)
		make_counter(&counter, &numbers, true);
	if (!make_counter(&counter, &numbers, below(2)))
		return;
	model_open(&model, numbers.bits, numbers.mult, numbers.shift);
	reading = below(8) ? reading & model.mask : reading;
	is_valid = reading <= model.mask && sec >= 0 && sec < 8277292036 && nsec < 1000000000;
	CHECK(tkc_clock_open(&clock, &counter, reading, sec, nsec) ==
	      (is_valid ? TKC_OK : TKC_INVALID));
	if (!is_valid) {
		CHECK(tkc_clock_open_at(&clock, &counter, reading, sec, nsec, -1, 0) ==
		      TKC_INVALID);
		return;
	}
	model.last = reading;
	model.real = sec * NANOS + nsec;
	compare_words(&clock, &model);
	try_open_at(&counter, &model, reading, sec, nsec);
	for (int i = 0; i < 30; i++) {
		try_command(&clock, &model);
		if (!below(4))
			try_change(&clock, &model, &counter);
		try_reads(&clock, &model);
		try_readings(&clock, &model);
		try_words(&counter, &clock, &model);
	}
}

int main(int argc, char **argv)
{
	uint64_t wanted = argc > 1 ? strtoull(argv[1], NULL, 10) : 1000000;

	if (argc > 2)
		seed(strtoull(argv[2], NULL, 10) | 1);
	CHECK(tkc_version() == TKC_VERSION);
	while (calls < wanted)
		round_of_calls();
	printf("compare_model: %" PRIu64 " answers are those of the header\n", calls);
	return EXIT_SUCCESS;
}
