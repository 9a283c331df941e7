/* SPDX-License-Identifier: MIT OR Apache-2.0 */
/*
 * Lets a writer change a page and a latch of include/tkcore_page.h before each load of each read
 * and of tkc_page_clock, and before each reading of the counter. The result is known each time: a
 * read returns the latest snapshot, and clocks are rebuilt only from a page that didn't move
 * meanwhile.
 *
 * tests/c/move_controls shows that this finds wrong headers.
 */
#include <stdatomic.h>
#include <stdint.h>
#include <stdio.h>
#include <stdlib.h>
#include <string.h>

/* Does a load of the header, after the writer's move. */
static void before_load(const _Atomic uint64_t *word);

static inline uint64_t load(const _Atomic uint64_t *word, memory_order order)
{
	before_load(word);
	return atomic_load_explicit(word, order);
}

#undef atomic_load_explicit
#define atomic_load_explicit(word, order) load(word, order)
#include <tkcore_page.h>

enum {
	COMMANDS = 5, /* more than the copies of a page and a latch */
	LATER = 4, /* loads after which a writer that is inside publishes */
	ROOM = 64, /* loads of an undisturbed call */
};

/* The moves of a writer: publications, or a command that publishes some loads later, or never. */
enum { INSIDE = COMMANDS + 1, STUCK, MOVES };

struct call {
	const char *name;
	/* Makes the call, whose result is clocks, or a snapshot if `is_read`. */
	uint32_t (*make)(struct tkc_clock *clocks, struct tkc_snapshot *snapshot);
	int is_latch, is_read, waits, has_line;
};

static struct tkc_page page;
static struct tkc_latch latch;
static struct tkc_clock clocks, former;
static uint64_t cycles;

/* The loads of the present call: how many, which of them are of a sequence, and the load before
 * which the writer moves. */
static int loads, is_writer, place, move;
static char is_sequence[ROOM];

static void fail(const char *name, const char *what)
{
	fprintf(stderr, "page_moves: %s, move %d before load %d: %s\n", name, move, place, what);
	exit(EXIT_FAILURE);
}

static void command(void)
{
	cycles += 1000;
	if (tkc_clock_apply(&clocks, cycles, TKC_CMD_TICK, 9000 + (int64_t)cycles / 1000, 0))
		fail("the writer", "a command was refused");
}

static void publish(void)
{
	struct tkc_snapshot snapshot;

	tkc_page_publish_clock(&page, &clocks);
	tkc_clock_snapshot(&snapshot, &clocks);
	tkc_latch_publish(&latch, &snapshot);
}

/* Does what the move says before the load `loads`. */
static void move_writer(void)
{
	int is_late = loads == place + LATER && move == INSIDE, i;

	if (loads == place && move <= COMMANDS)
		for (i = 0; i < move; i++) {
			tkc_page_begin(&page);
			command();
			publish();
		}
	else if (loads == place) {
		tkc_page_begin(&page);
		command();
	} else if (is_late)
		publish();
}

static void before_load(const _Atomic uint64_t *word)
{
	if (is_writer)
		return;
	is_writer = 1;
	move_writer();
	is_writer = 0;
	if (loads < ROOM)
		is_sequence[loads] = word == &page.sequence || word == &latch.sequence;
	loads++;
}

static uint64_t read_counter(void *context)
{
	(void)context;
	before_load(NULL);
	return cycles;
}

static uint32_t rebuild(struct tkc_clock *found, struct tkc_snapshot *snapshot)
{
	(void)snapshot;
	return tkc_page_clock(&page, found);
}

static uint32_t read_page(struct tkc_clock *found, struct tkc_snapshot *snapshot)
{
	(void)found;
	return tkc_page_read(&page, snapshot);
}

static uint32_t look_at_page(struct tkc_clock *found, struct tkc_snapshot *snapshot)
{
	uint64_t reading;
	uint32_t code = tkc_page_look(&page, read_counter, NULL, snapshot, &reading);

	(void)found;
	return reading == cycles ? code : TKC_INVALID;
}

static uint32_t try_page(struct tkc_clock *found, struct tkc_snapshot *snapshot)
{
	struct tkc_time time, wanted;
	uint32_t code = tkc_page_try_now(&page, 1, TKC_CLOCK_TAI, read_counter, NULL, &time);

	(void)found;
	tkc_clock_snapshot(snapshot, &clocks);
	if (!code && (tkc_snapshot_get(&wanted, snapshot, TKC_CLOCK_TAI, cycles) ||
		      memcmp(&time, &wanted, sizeof(time))))
		return TKC_INVALID;
	return code;
}

static uint32_t read_latch(struct tkc_clock *found, struct tkc_snapshot *snapshot)
{
	(void)found;
	return tkc_latch_read(&latch, snapshot);
}

static uint32_t look_at_latch(struct tkc_clock *found, struct tkc_snapshot *snapshot)
{
	uint64_t reading;
	uint32_t code = tkc_latch_look(&latch, read_counter, NULL, snapshot, &reading);

	(void)found;
	return reading == cycles ? code : TKC_INVALID;
}

#include "page_moves_readers.h"

static const struct call calls[] = {
	{ "tkc_page_clock", rebuild, 0, 0, 0, 0 },
	{ "tkc_page_read", read_page, 0, 1, 1, 0 },
	{ "tkc_page_look", look_at_page, 0, 1, 1, 0 },
	{ "tkc_page_try_now", try_page, 0, 1, 0, 0 },
	{ "tkc_page_reader_look without a line", look_anew, 0, 1, 1, 0 },
	{ "tkc_page_reader_look", look_by_line, 0, 1, 1, 1 },
	{ "tkc_page_reader_try_get", try_line, 0, 1, 0, 1 },
	{ "tkc_latch_read", read_latch, 1, 1, 1, 0 },
	{ "tkc_latch_look", look_at_latch, 1, 1, 1, 0 },
	{ "tkc_latch_reader_look without a line", look_at_latch_anew, 1, 1, 1, 0 },
	{ "tkc_latch_reader_look", look_at_latch_by_line, 1, 1, 1, 1 },
};

static void open_all(void)
{
	struct tkc_snapshot snapshot;
	struct tkc_counter counter;

	cycles = 0;
	if (tkc_counter_from_hz(&counter, 64, 1000000000, 10) ||
	    tkc_clock_open(&clocks, &counter, 0, 1700000000, 0))
		fail("the writer", "no clocks were opened");
	tkc_clock_snapshot(&snapshot, &clocks);
	is_writer = 1;
	tkc_page_init_clock(&page, &clocks);
	tkc_latch_init(&latch, &snapshot);
	init_readers();
	is_writer = 0;
	former = clocks;
}

/* Makes the call anew, with the writer's move before a load. Returns its code. */
static uint32_t make(const struct call *call, int before, struct tkc_clock *found,
		     struct tkc_snapshot *snapshot)
{
	open_all();
	loads = 0;
	place = before;
	return call->make(found, snapshot);
}

static int are_equal(const struct tkc_clock *left, const struct tkc_clock *right)
{
	uint64_t words[2][TKC_SAVED_WORDS];

	tkc_clock_save(words[0], left);
	tkc_clock_save(words[1], right);
	return !memcmp(words[0], words[1], sizeof(words[0]));
}

static int are_equal_snapshots(const struct tkc_snapshot *found, const struct tkc_clock *clock)
{
	struct tkc_snapshot wanted;
	uint64_t words[2][TKC_WORDS];

	tkc_clock_snapshot(&wanted, clock);
	tkc_snapshot_words(words[0], found);
	tkc_snapshot_words(words[1], &wanted);
	return !memcmp(words[0], words[1], sizeof(words[0]));
}

/* Checks a call with the present move before load `before`, with its first load of the sequence
 * there. */
static void check(const struct call *call, int before, int first)
{
	struct tkc_snapshot snapshot;
	struct tkc_clock found;
	int is_within = before > first, is_inside = move == STUCK || move == INSIDE;
	uint32_t code = make(call, before, &found, &snapshot), wanted = TKC_OK;

	if (!call->waits && (is_within || (call->is_read && is_inside)))
		wanted = TKC_BUSY;
	if (code != wanted)
		fail(call->name, wanted ? "the writer went unnoticed" : "another code");
	if (code)
		return;
	if (call->is_read ? !are_equal_snapshots(&snapshot, &clocks) :
			    !are_equal(&found, is_inside ? &former : &clocks))
		fail(call->name, "another snapshot");
}

/* Checks a call with each move before each of its loads. Returns the number of these. */
static int check_all(const struct call *call)
{
	struct tkc_snapshot snapshot;
	struct tkc_clock found;
	int count, first = 0, last, before, checks = 0;

	move = 0;
	if (make(call, -1, &found, &snapshot) || loads > ROOM)
		fail(call->name, "an undisturbed call failed");
	count = loads;
	while (first < count && !is_sequence[first])
		first++;
	for (last = count - 1; last >= 0 && !is_sequence[last];)
		last--;
	if (last != count - 1 || last - first <= (call->has_line ? 1 : TKC_LATCH_WORDS))
		fail(call->name, "something isn't between two loads of the sequence");
	for (move = 1; move < MOVES; move++)
		for (before = 0; before <= last; before++) {
			if (move == STUCK && (call->waits || call->is_latch))
				continue; /* (it would wait for ever) */
			if (move == INSIDE && (call->is_latch || !call->waits))
				continue;
			check(call, before, first);
			checks++;
		}
	return checks;
}

int main(void)
{
	int checks = 0;
	size_t i;

	for (i = 0; i < sizeof(calls) / sizeof(calls[0]); i++)
		checks += check_all(&calls[i]);
	printf("page_moves: in %d places a writer moved amid a read, and each result was right\n",
	       checks);
	return EXIT_SUCCESS;
}
