/* SPDX-License-Identifier: MIT OR Apache-2.0 */
/* Changes the counter of clocks, awake and asleep. */
#include "worked_changes.h"

struct numbers {
	uint32_t bits, mult, shift;
};

static const struct numbers counters[] = {
	{ 32, 16777216, 24 },
	{ 64, 4194304, 0 },
	{ 64, 3000000000, 32 },
	{ 64, 1000000000, 30 },
	{ 64, 259, 0 },
	{ 8, 256, 0 },
	{ 8, 1000000, 0 },
	{ 40, 1000, 1 },
	{ 40, 1000, 0 },
	{ 16, 1000, 1 },
	{ 64, 8388608, 24 },
};

/* From a shift of 24 to one of 32, and back. */
static const struct command fastest[] = {
	{ 0, TKC_CMD_FREQ, 32768000, 0, TKC_OK },
	{ 10, TKC_CMD_TAI_OFFSET, 37, 0, TKC_OK },
};

static const struct change to_fine[] = {
	{ 1000000007, FINE, 5, TKC_OK },
};

static const struct stored FINE_WORDS = {
	.words = { 3, 5, 3001500000, 2147358079802368, 1, 1700000000000000000,
		   0, 2 * 37, 30064771072, 1 },
	.frequency = 32768000,
	.tick = 10000,
};

static const struct timed_read fine_reads[] = {
	{ TKC_CLOCK_MONOTONIC, 5, 1, 499970 },
	{ TKC_CLOCK_MONOTONIC_COARSE, 5, 1, 499970 },
	{ TKC_CLOCK_BOOTTIME, 5, 1, 499970 },
	{ TKC_CLOCK_REALTIME, 5, 1700000001, 499970 },
	{ TKC_CLOCK_TAI, 5, 1700000038, 499970 },
	{ TKC_CLOCK_MONOTONIC_RAW, 5, 1, 7 },
};

static const struct change to_nanoseconds[] = {
	{ 1000005, NANOSECOND, 4294967295, TKC_OK },
};

static const struct stored NANOSECOND_WORDS = {
	.words = { 4, 4294967295, 16785604, 20112726874228, 1,
		   1700000000000000000, 0, 2 * 37, 11718867440512, 1 },
	.frequency = 32768000,
	.tick = 10000,
};

static const struct timed_read nanosecond_reads[] = {
	{ TKC_CLOCK_MONOTONIC, 4294967295, 1, 1198811 },
	{ TKC_CLOCK_MONOTONIC_RAW, 4294967295, 1, 698498 },
	{ TKC_CLOCK_MONOTONIC, 0, 1, 1198812 },
	{ TKC_CLOCK_MONOTONIC, 999, 1, 1199812 },
};

/* From 8 bits to 64. */
static const struct command to_255[] = {
	{ 255, TKC_CMD_UPDATE, 0, 0, TKC_OK },
};

static const struct change to_wide[] = {
	{ 100, WIDE, UINT64_MAX, TKC_OK },
};

static const struct timed_read wide_reads[] = {
	{ TKC_CLOCK_MONOTONIC, UINT64_MAX, 0, 39936 },
	{ TKC_CLOCK_MONOTONIC, 0, 0, 4234240 },
	{ TKC_CLOCK_MONOTONIC, 9, 0, 41982976 },
	{ TKC_CLOCK_MONOTONIC, INT64_MAX, 0, 39936 },
};

/* A fraction that is cut: 7 cycles last 4.889 ns, of which halves are kept, and
 * of 504.5 ns only whole ones are. */
static const struct change to_halves[] = {
	{ 7, HALVES, 3, TKC_OK },
};

static const struct timed_read halves_reads[] = {
	{ TKC_CLOCK_MONOTONIC, 3, 0, 4 },
	{ TKC_CLOCK_MONOTONIC_RAW, 3, 0, 4 },
	{ TKC_CLOCK_MONOTONIC, 4, 0, 504 },
};

static const struct change to_whole[] = {
	{ 4, WHOLE, 9, TKC_OK },
};

static const struct timed_read whole_reads[] = {
	{ TKC_CLOCK_MONOTONIC, 9, 0, 504 },
	{ TKC_CLOCK_MONOTONIC_RAW, 9, 0, 504 },
	{ TKC_CLOCK_MONOTONIC, 10, 0, 1504 },
};

/* A change asleep brings nothing forward: its reading may be behind. */
static const struct command suspension[] = {
	{ 1000, TKC_CMD_SUSPEND, 0, 0, TKC_OK },
};

static const struct change asleep_changes[] = {
	{ 4294967296, FINE, 77, TKC_INVALID },
	{ 5, NARROW, 256, TKC_INVALID },
	{ 5, FINE, 77, TKC_OK },
};

static const struct timed_read asleep_reads[] = {
	{ TKC_CLOCK_MONOTONIC, 1000000, 0, 1000 },
	{ TKC_CLOCK_REALTIME, 77, 1700000000, 1000 },
};

static const struct command resumption[] = {
	{ 100, TKC_CMD_UPDATE, 0, 0, TKC_ASLEEP },
	{ 100, TKC_CMD_RESUME, 3, 0, TKC_OK },
};

/* 100 cycles of FINE after the resumption. */
static const struct timed_read resumed_reads[] = {
	{ TKC_CLOCK_MONOTONIC, 200, 0, 1069 },
	{ TKC_CLOCK_MONOTONIC_RAW, 200, 0, 1069 },
	{ TKC_CLOCK_BOOTTIME, 200, 3, 1069 },
	{ TKC_CLOCK_REALTIME, 200, 1700000003, 1069 },
};

/* The clocks after 1,000 changes among NANOSECOND, FINE and COARSE. */
static const struct stored CHANGED_WORDS = {
	.words = { 1001, 3000, 3001500000, 365946789337269248, 0,
		   1700000000000000000, 0, 0, 365946166547841024, 0 },
	.frequency = 32768000,
	.tick = 10000,
};

/* The clocks that the rows of a table are applied to. */
static struct tkc_clock clock;

static struct tkc_counter counter_of(enum counter number)
{
	const struct numbers *numbers = &counters[number];
	struct tkc_counter counter;

	check(!tkc_counter_new(&counter, numbers->bits, numbers->mult,
			       numbers->shift));
	return counter;
}

struct tkc_clock opened_at(enum counter number, uint64_t reading, int64_t sec)
{
	struct tkc_counter counter = counter_of(number);
	struct tkc_clock out;

	check(!tkc_clock_open(&out, &counter, reading, sec, 0));
	return out;
}

void change(struct tkc_clock *changed, const struct change *row)
{
	struct tkc_counter counter = counter_of(row->counter);
	struct tkc_clock before = *changed, same;
	struct stored found;
	uint32_t code = tkc_clock_change_counter(changed, row->reading, &counter,
						 row->first);

	check(code == row->code);
	if (code) {
		check(!memcmp(changed, &before, sizeof(before)));
		return;
	}
	tkc_clock_words(found.words, &found.frequency, &found.tick, changed);
	check(found.words[1] == row->first);
	check(!tkc_clock_from_words(&same, &counter, found.words,
				    found.frequency, found.tick));
	check_stored(&same, &found);
}

void read_row(const struct tkc_clock *of, const struct timed_read *row)
{
	struct tkc_snapshot snapshot = snapshot_of(*of);
	struct tkc_time time = read_at(&snapshot, row->clock, row->reading);

	check(time.sec == row->sec && time.nsec == row->nsec);
}

static void try_command(const struct command *row)
{
	apply(&clock, row);
}

static void try_change(const struct change *row)
{
	change(&clock, row);
}

static void try_read(const struct timed_read *row)
{
	read_row(&clock, row);
}

static void try_shifts(void)
{
	struct tkc_snapshot before;
	struct tkc_time time;

	clock = opened();
	try_each(fastest, try_command);
	before = snapshot_of(clock);
	try_each(to_fine, try_change);
	check_stored(&clock, &FINE_WORDS);
	try_each(fine_reads, try_read);
	/* a snapshot from before the change keeps its counter */
	time = read_at(&before, TKC_CLOCK_MONOTONIC, 1000000007);
	check(time.sec == 1 && time.nsec == 499970);
	check(tkc_snapshot_get(&time, &before, TKC_CLOCK_MONOTONIC, 4294967296) ==
	      TKC_INVALID);
	try_each(to_nanoseconds, try_change);
	check_stored(&clock, &NANOSECOND_WORDS);
	try_each(nanosecond_reads, try_read);
	clock = opened_at(FINE, 0, 5);
	try_each(to_halves, try_change);
	try_each(halves_reads, try_read);
	try_each(to_whole, try_change);
	try_each(whole_reads, try_read);
}

static void try_widths(void)
{
	clock = opened_at(NARROW, 200, 0);
	try_each(to_255, try_command);
	try_each(to_wide, try_change);
	try_each(wide_reads, try_read);
}

static void try_asleep(void)
{
	clock = opened();
	try_each(suspension, try_command);
	try_each(asleep_changes, try_change);
	try_each(asleep_reads, try_read);
	try_each(resumption, try_command);
	try_each(resumed_reads, try_read);
}

/* Changes the counter 1,000 times, to these counters in turn. The clocks run
 * `turn + 10` cycles before each change. */
static void change_in_turn(const enum counter turns[6])
{
	for (uint64_t turn = 0; turn < 1000; turn++) {
		struct change row = { 4 * turn + 10, turns[turn % 6], 3 * turn + 3,
				      TKC_OK };

		try_change(&row);
	}
}

static void try_many(void)
{
	static const enum counter halves[6] = { HALF, NANOSECOND, HALF,
						NANOSECOND, HALF, NANOSECOND };
	static const enum counter mixed[6] = { FINE, COARSE, NANOSECOND,
					       FINE, COARSE, NANOSECOND };
	/* 254,500 cycles of a nanosecond, and 255,000 of half a nanosecond */
	static const struct timed_read sum = { TKC_CLOCK_MONOTONIC, 3000, 0, 382000 };

	clock = opened();
	change_in_turn(halves);
	try_read(&sum);
	clock = opened();
	try_command(&fastest[0]);
	change_in_turn(mixed);
	check_stored(&clock, &CHANGED_WORDS);
}

void try_changes(void)
{
	try_shifts();
	try_widths();
	try_asleep();
	try_many();
}
