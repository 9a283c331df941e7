/* SPDX-License-Identifier: MIT OR Apache-2.0 */
/* The calls on counters, clocks and snapshots. */
#include "filled.h"

struct tkc_counter filled_counter(void)
{
	struct tkc_counter counter;

	made(tkc_counter_new(&counter, 64, 1 << 24, 24));
	return counter;
}

static void counter_new(void *out)
{
	made(tkc_counter_new(out, 64, 1 << 24, 24));
}

static void counter_from_hz(void *out)
{
	made(tkc_counter_from_hz(out, 56, 24000000, 600));
}

static void counter_from_khz(void *out)
{
	made(tkc_counter_from_khz(out, 64, 4700000, 600));
}

static void counter_finest(void *out)
{
	made(tkc_counter_finest(out, 64, 4491000000, 60));
}

static void clock_open(void *out)
{
	struct tkc_counter counter = filled_counter();

	made(tkc_clock_open(out, &counter, 5, 1700000000, 7));
}

static void clock_open_at(void *out)
{
	struct tkc_counter counter = filled_counter();

	made(tkc_clock_open_at(out, &counter, 5, 1700000000, 7, 3600, 9));
}

/* Every command, and a change of counter. */
void fill_commanded(void *out)
{
	struct tkc_counter counter;

	clock_open(out);
	counter_from_hz(&counter);
	made(tkc_clock_apply(out, 10, TKC_CMD_UPDATE, 0, 0));
	made(tkc_clock_apply(out, 5000000000, TKC_CMD_UPDATE, 0, 0));
	made(tkc_clock_apply(out, 5000000001, TKC_CMD_SET_TIME, 1800000000, 1));
	made(tkc_clock_apply(out, 5000000002, TKC_CMD_STEP, -3, 1));
	made(tkc_clock_apply(out, 5000000003, TKC_CMD_FREQ, 6553600, 0));
	made(tkc_clock_apply(out, 5000000004, TKC_CMD_TICK, 10001, 0));
	made(tkc_clock_apply(out, 5000000005, TKC_CMD_TAI_OFFSET, 37, 0));
	made(tkc_clock_apply(out, 5000000006, TKC_CMD_LEAP, -1, 38));
	made(tkc_clock_apply(out, 5000000007, TKC_CMD_SUSPEND, 0, 0));
	made(tkc_clock_apply(out, 5000000008, TKC_CMD_RESUME, 60, 0));
	made(tkc_clock_change_counter(out, 5000000009, &counter, 11));
}

static void clock_asleep(void *out)
{
	clock_open(out);
	made(tkc_clock_apply(out, 10, TKC_CMD_SUSPEND, 0, 0));
}

static void clock_from_words(void *out)
{
	struct tkc_counter counter = filled_counter();
	uint64_t words[TKC_WORDS];
	int64_t frequency, tick;
	struct tkc_clock clock;

	clock_open(&clock);
	make(tkc_clock_words(words, &frequency, &tick, &clock));
	made(tkc_clock_from_words(out, &counter, words, frequency, tick));
}

static void clock_save(void *out)
{
	struct tkc_clock clock;

	fill_commanded(&clock);
	make(tkc_clock_save(out, &clock));
}

static void clock_load(void *out)
{
	uint64_t words[TKC_SAVED_WORDS];

	clock_save(words);
	made(tkc_clock_load(out, words));
}

static void clock_words(void *out)
{
	int64_t frequency, tick;
	struct tkc_clock clock;

	fill_commanded(&clock);
	make(tkc_clock_words(out, &frequency, &tick, &clock));
	check(frequency == 6553600 && tick == 10001);
}

void fill_snapshot(void *out)
{
	struct tkc_clock clock;

	fill_commanded(&clock);
	make(tkc_clock_snapshot(out, &clock));
}

static void snapshot_asleep(void *out)
{
	struct tkc_clock clock;

	clock_asleep(&clock);
	make(tkc_clock_snapshot(out, &clock));
}

static void snapshot_words(void *out)
{
	struct tkc_snapshot snapshot;

	fill_snapshot(&snapshot);
	make(tkc_snapshot_words(out, &snapshot));
}

static void snapshot_from_words(void *out)
{
	struct tkc_snapshot snapshot;
	struct tkc_counter counter;
	uint64_t words[TKC_WORDS];

	fill_snapshot(&snapshot);
	make(tkc_snapshot_counter(&counter, &snapshot));
	make(tkc_snapshot_words(words, &snapshot));
	made(tkc_snapshot_from_words(out, &counter, words));
}

static void snapshot_counter(void *out)
{
	struct tkc_snapshot snapshot;

	fill_snapshot(&snapshot);
	make(tkc_snapshot_counter(out, &snapshot));
}

static void snapshot_get(void *out)
{
	struct tkc_snapshot snapshot;

	fill_snapshot(&snapshot);
	made(tkc_snapshot_get(out, &snapshot, TKC_CLOCK_BOOTTIME, 12));
}

static void snapshot_coarse(void *out)
{
	struct tkc_snapshot snapshot;

	fill_snapshot(&snapshot);
	made(tkc_snapshot_coarse(out, &snapshot, TKC_CLOCK_TAI));
}

static void snapshot_step(void *out)
{
	struct tkc_snapshot snapshot;
	struct tkc_time *times = out;

	fill_snapshot(&snapshot);
	made(tkc_snapshot_step(&times[0], &times[1], &snapshot, 12, -3, 1));
}

static void snapshot_line(void *out)
{
	struct tkc_snapshot snapshot;

	fill_snapshot(&snapshot);
	made(tkc_snapshot_line(out, &snapshot, TKC_CLOCK_BOOTTIME));
}

static void line_get(void *out)
{
	struct tkc_snapshot snapshot;
	struct tkc_line line;

	fill_snapshot(&snapshot);
	made(tkc_snapshot_line(&line, &snapshot, TKC_CLOCK_BOOTTIME));
	made(!tkc_line_get(out, &line, 12));
}

static void snapshot_reading(void *out)
{
	struct tkc_snapshot snapshot;

	fill_snapshot(&snapshot);
	made(tkc_snapshot_reading(out, &snapshot, TKC_CLOCK_MONOTONIC, 7, 0));
}

static void snapshot_convert(void *out)
{
	uint64_t stamps[9], *times = out;
	struct tkc_snapshot snapshot;
	size_t done;

	fill_snapshot(&snapshot);
	for (size_t i = 0; i < COUNT_OF(stamps); i++)
		stamps[i] = 12 + i;
	made(tkc_snapshot_convert(times, 9, &done, &snapshot, TKC_CLOCK_TAI, stamps, 9));
	times[9] = done;
}

const struct filled filled_clocks[] = {
	{ "counter_new", counter_new, sizeof(struct tkc_counter) },
	{ "counter_from_hz", counter_from_hz, sizeof(struct tkc_counter) },
	{ "counter_from_khz", counter_from_khz, sizeof(struct tkc_counter) },
	{ "counter_finest", counter_finest, sizeof(struct tkc_counter) },
	{ "clock_open", clock_open, sizeof(struct tkc_clock) },
	{ "clock_open_at", clock_open_at, sizeof(struct tkc_clock) },
	{ "clock_apply", fill_commanded, sizeof(struct tkc_clock) },
	{ "clock_asleep", clock_asleep, sizeof(struct tkc_clock) },
	{ "clock_from_words", clock_from_words, sizeof(struct tkc_clock) },
	{ "clock_load", clock_load, sizeof(struct tkc_clock) },
	{ "clock_save", clock_save, sizeof(uint64_t[TKC_SAVED_WORDS]) },
	{ "clock_words", clock_words, sizeof(uint64_t[TKC_WORDS]) },
	{ "clock_snapshot", fill_snapshot, sizeof(struct tkc_snapshot) },
	{ "snapshot_asleep", snapshot_asleep, sizeof(struct tkc_snapshot) },
	{ "snapshot_words", snapshot_words, sizeof(uint64_t[TKC_WORDS]) },
	{ "snapshot_from_words", snapshot_from_words, sizeof(struct tkc_snapshot) },
	{ "snapshot_counter", snapshot_counter, sizeof(struct tkc_counter) },
	{ "snapshot_get", snapshot_get, sizeof(struct tkc_time) },
	{ "snapshot_coarse", snapshot_coarse, sizeof(struct tkc_time) },
	{ "snapshot_step", snapshot_step, sizeof(struct tkc_time[2]) },
	{ "snapshot_line", snapshot_line, sizeof(struct tkc_line) },
	{ "line_get", line_get, sizeof(struct tkc_time) },
	{ "snapshot_reading", snapshot_reading, sizeof(uint64_t) },
	{ "snapshot_convert", snapshot_convert, sizeof(uint64_t[10]) },
	{ NULL, NULL, 0 },
};
