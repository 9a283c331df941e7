/* SPDX-License-Identifier: GPL-2.0 */
/*
 * Runs examples/kernel/clocks.c in steps, on a machine that shows a store late,
 * as x86-64 does: the other processors see an odd sequence only after the
 * writer's full barrier, or after its next stores. Before each step of a
 * command another processor reads, and before each step of a read another one
 * gives a command. The result is known each time: the latest snapshot with a
 * reading of its counter, or that the read waits for the command.
 *
 * tests/c/kernel_controls shows that it finds clocks.c in wrong orders.
 */
#include "kernel_machine.h"

#include "clocks.c"

enum { OTHER = 40 /* the bit of the other counter's readings */ };

/* A read of another processor, and how far the command was. */
struct look {
	struct tkc_snapshot snapshot, fast;
	u64 reading, fast_reading;
	bool waits, is_inside, has_read, has_ended;
};

static struct clocks clocks;
static u64 cycles;
static struct look found;

static void smp_mb(void)
{
	step();
	clocks.seq.seen = clocks.seq.stored;
}

static u64 count(void)
{
	step();
	cycles += 1000;
	has_read |= !is_other;
	return cycles;
}

static u64 read_counter(void)
{
	u64 reading = count();

	step();
	return reading;
}

static u64 read_other(void)
{
	u64 reading = count() | (u64)1 << OTHER;

	step();
	return reading;
}

static void open_clocks(void)
{
	const struct tkc_time time = { 1700000000, 0, 0 };
	struct command command = { .command = TKC_CMD_TICK, .number = 11000 };

	memset(&clocks, 0, sizeof(clocks));
	cycles = 0;
	clocks.read_counter = read_counter;
	is_other = true;
	if (tkc_counter_from_hz(&clocks.counter, 64, 1000000000, 600) ||
	    clocks_open(&clocks, 0, &time))
		fail("no clocks are opened");
	clocks_command(&clocks, &command);
	is_other = false;
	if (command.code)
		fail("the first command is refused");
	steps = 0;
	is_inside = has_read = has_ended = false;
}

static void give_command(void)
{
	struct command it = { .command = TKC_CMD_TICK, .number = 9000 };

	clocks_command(&clocks, &it);
	if (it.code || it.front != 2)
		fail("a command is refused");
}

static void change_counter(void)
{
	struct tkc_counter fine;

	if (tkc_counter_new(&fine, 64, 1 << 24, 24) ||
	    clocks_change_counter(&clocks, &fine, read_other))
		fail("a change of counter is refused");
}

/* Reads as another processor does. */
static void look(void)
{
	found.is_inside = is_inside;
	found.has_read = has_read;
	found.has_ended = has_ended;
	found.waits = true;
	if (!setjmp(waiting)) {
		clocks_look(&clocks, &found.snapshot, &found.reading);
		found.waits = false;
	}
	clocks_look_fast(&clocks, &found.fast, &found.fast_reading);
}

static bool are_equal(const struct tkc_snapshot *left,
		      const struct tkc_snapshot *right)
{
	return !memcmp(left, right, sizeof(*left));
}

/* A snapshot comes with a reading of its own counter. */
static void check_counter(const struct tkc_snapshot *snapshot, u64 reading)
{
	struct tkc_counter counter;
	u32 bits, mult, shift;

	tkc_snapshot_counter(&counter, snapshot);
	tkc_counter_numbers(&bits, &mult, &shift, &counter);
	if ((shift == 24 && mult == 1 << 24) != (reading >> OTHER == 1))
		fail("a reading of another counter");
}

/* Checks the read that came before the present step of a command. */
static void check_look(const struct tkc_snapshot *old, bool *is_new)
{
	const struct tkc_snapshot *latest = &clocks.snapshot;

	if (found.waits && !found.is_inside)
		fail("a read waits for no command");
	if (!found.waits && found.has_read && !found.has_ended)
		fail("a read doesn't wait for a command that has a reading");
	if (!found.waits) {
		check_counter(&found.snapshot, found.reading);
		if (!are_equal(&found.snapshot, found.has_ended ? latest : old))
			fail("a read returns another snapshot");
	}
	check_counter(&found.fast, found.fast_reading);
	if (are_equal(&found.fast, latest))
		*is_new = true;
	else if (*is_new || !are_equal(&found.fast, old))
		fail("a fast read returns another snapshot");
}

/* Lets another processor read before each step of a command. */
static int check_command(void (*make)(void))
{
	bool is_new = false;

	other = look;
	for (place = 0;; place++) {
		struct tkc_snapshot old;

		open_clocks();
		old = clocks.snapshot;
		make();
		if (steps <= place)
			break;
		check_look(&old, &is_new);
	}
	if (!is_new)
		fail("no fast read returns the new snapshot");
	return place;
}

/* Lets another processor give a command before each step of a read. */
static int check_read(void (*make)(void), bool is_fast)
{
	struct tkc_snapshot snapshot;
	u64 reading;

	other = make;
	for (place = 0;; place++) {
		open_clocks();
		if (is_fast)
			clocks_look_fast(&clocks, &snapshot, &reading);
		else
			clocks_look(&clocks, &snapshot, &reading);
		if (steps <= place)
			return place;
		check_counter(&snapshot, reading);
		if (!are_equal(&snapshot, &clocks.snapshot))
			fail("a read missed the command amid it");
	}
}

int main(void)
{
	void (*const calls[])(void) = { give_command, change_counter };
	int places = 0;

	for (size_t i = 0; i < ARRAY_SIZE(calls); i++)
		places += check_command(calls[i]) + check_read(calls[i], false) +
			  check_read(calls[i], true);
	printf("kernel_moves: in %d places another processor read or gave a"
	       " command, and each result was right\n",
	       places);
	return EXIT_SUCCESS;
}
