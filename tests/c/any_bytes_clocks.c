/* SPDX-License-Identifier: MIT OR Apache-2.0 */
/* Opens clocks, applies random commands to them, and changes their counter. */
#include "any_bytes.h"

#include <string.h>

enum { COMMANDS = 4 /* in a round */ };

static int64_t some_number(uint32_t command)
{
	if (one_in(8))
		return (int64_t)some();
	switch (command) {
	case TKC_CMD_SET_TIME:
	case TKC_CMD_RESUME:
		return (int64_t)below(2000000000);
	case TKC_CMD_TICK:
		return (int64_t)below(2100) + 8950;
	case TKC_CMD_TAI_OFFSET:
		return (int64_t)below(100003) - 1;
	case TKC_CMD_LEAP:
		return (int64_t)below(4) - 2;
	default:
		return (int64_t)below(80000000) - 40000000;
	}
}

/* Sets a clock's count of commands close to its limit of 2^63 - 1. */
static void fill_count(struct tkc_clock *clock, const struct tkc_counter *counter)
{
	uint64_t words[TKC_WORDS];
	int64_t frequency, tick;

	tkc_clock_words(words, &frequency, &tick, clock);
	words[0] = (uint64_t)INT64_MAX - below(3);
	check(!try_clock_words(clock, counter, words, frequency, tick));
}

static bool is_command_code(uint32_t code, uint32_t command)
{
	if (command > TKC_CMD_LEAP)
		return code == TKC_BAD_COMMAND;
	return code <= TKC_RANGE;
}

static void try_command(struct tkc_clock *of)
{
	struct tkc_clock *clock = put(rooms.clock, of, sizeof(*of));
	uint32_t command = one_in(20) ? (uint32_t)some() : (uint32_t)below(9);
	uint64_t before[TKC_WORDS], after[TKC_WORDS], reading;
	int64_t frequency, tick;
	uint32_t code;

	tkc_clock_words(before, &frequency, &tick, clock);
	reading = one_in(8) ? some() : before[1] + (any() >> below(64));
	code = saw(tkc_clock_apply(clock, reading, command, some_number(command),
				   some_nsec()));
	check(is_command_code(code, command));
	tkc_clock_words(after, &frequency, &tick, clock);
	if (code)
		check(!memcmp(clock, of, sizeof(*of)));
	else
		check(after[0] == before[0] + 1 && after[1] == reading);
	check((code == TKC_FULL) ==
	      (command <= TKC_CMD_LEAP && before[0] >= INT64_MAX));
	*of = *clock;
}

/* Changes the counter, and stores the new one if the change is accepted. */
static void try_change(struct tkc_clock *of, struct tkc_counter *counter)
{
	uint64_t before[TKC_WORDS], after[TKC_WORDS], reading, first = some();
	struct tkc_counter other;
	const struct tkc_counter *to;
	struct tkc_clock *clock;
	int64_t frequency, tick;
	uint32_t code;

	some_counter(&other);
	to = put(rooms.counter, &other, sizeof(other));
	clock = put(rooms.clock, of, sizeof(*of));
	tkc_clock_words(before, &frequency, &tick, clock);
	reading = one_in(8) ? some() : before[1] + (any() >> below(64));
	code = saw(tkc_clock_change_counter(clock, reading, to, first));
	check(code == TKC_FULL || code == TKC_INVALID || code == TKC_BEHIND ||
	      code == TKC_RANGE || code == TKC_OK);
	check((code == TKC_FULL) == (before[0] >= INT64_MAX));
	check(!memcmp(to, &other, sizeof(other)));
	tkc_clock_words(after, &frequency, &tick, clock);
	if (code) {
		check(!memcmp(clock, of, sizeof(*of)));
	} else {
		check(after[0] == before[0] + 1 && after[1] == first);
		*counter = other;
	}
	*of = *clock;
}

static void snapshot_of(struct tkc_snapshot *snapshot, const struct tkc_clock *of)
{
	const struct tkc_clock *clock = put(rooms.clock, of, sizeof(*of));
	struct tkc_snapshot *out = place(rooms.snapshot, sizeof(*out));
	uint64_t words[TKC_WORDS];
	int64_t frequency, tick;

	tkc_clock_snapshot(out, clock);
	tkc_clock_words(words, &frequency, &tick, clock);
	check(is_same_snapshot(out, words));
	check(tkc_clock_frequency(clock) == frequency && tkc_clock_tick(clock) == tick);
	*snapshot = *out;
}

static uint32_t try_open(struct tkc_clock *clock, const struct tkc_counter *of)
{
	const struct tkc_counter *counter = put(rooms.counter, of, sizeof(*of));
	uint64_t reading = one_in(2) ? below(256) : some();
	struct tkc_clock before;
	struct tkc_clock *out = fill(rooms.clock, &before, sizeof(before));
	int64_t sec = (int64_t)(one_in(4) ? some() : below(8277292037));
	uint32_t code = saw(tkc_clock_open(out, counter, reading, sec, some_nsec()));

	check(code == TKC_OK || code == TKC_INVALID);
	check(!code || !memcmp(out, &before, sizeof(before)));
	*clock = *out;
	return code;
}

static uint32_t try_open_at(struct tkc_clock *clock, const struct tkc_counter *of)
{
	const struct tkc_counter *counter = put(rooms.counter, of, sizeof(*of));
	uint64_t reading = one_in(2) ? below(256) : some();
	struct tkc_clock before;
	struct tkc_clock *out = fill(rooms.clock, &before, sizeof(before));
	int64_t sec = (int64_t)(one_in(4) ? some() : below(8277292037));
	int64_t uptime = (int64_t)(one_in(4) ? some() : below(946080001));
	uint32_t code = saw(tkc_clock_open_at(out, counter, reading, sec, some_nsec(), uptime,
					      some_nsec()));

	check(code == TKC_OK || code == TKC_INVALID || code == TKC_RANGE);
	check(!code || !memcmp(out, &before, sizeof(before)));
	*clock = *out;
	return code;
}

void try_clocks(struct tkc_clock *clock, struct tkc_counter *counter,
		struct tkc_snapshot *snapshot)
{
	if (one_in(4) ? try_open_at(clock, counter) : try_open(clock, counter))
		check(!tkc_clock_open(clock, counter, 0, 1700000000, 0));
	if (one_in(16))
		fill_count(clock, counter);
	for (int i = 0; i < COMMANDS; i++) {
		if (one_in(8))
			try_change(clock, counter);
		try_command(clock);
	}
	snapshot_of(snapshot, clock);
}
