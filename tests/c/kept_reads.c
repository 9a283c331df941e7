/* SPDX-License-Identifier: MIT OR Apache-2.0 */
/*
 * Calls each read of include/tkcore_page.h that keeps a line where its answer and the number of its
 * loads are known: before and after publications, inside a writer's command, on words that nobody
 * published, at the last sequence of all, and after a change of counter.
 *
 * tests/c/kept_controls shows that this finds wrong headers.
 */
#include <stdatomic.h>
#include <stdint.h>
#include <stdio.h>
#include <stdlib.h>
#include <string.h>

static int loads; /* that the header has done */

static inline uint64_t load(const _Atomic uint64_t *word, memory_order order)
{
	loads++;
	return atomic_load_explicit(word, order);
}

#undef atomic_load_explicit
#define atomic_load_explicit(word, order) load(word, order)
#include <tkcore_page.h>

#include "two_counters.h"

enum { STEP = 1000000, TRIES = 5, KEPT = 2 /* loads */, RENEWED = KEPT + TKC_LATCH_WORDS };

static struct tkc_page page;
static struct tkc_latch latch;
static struct tkc_page_reader reader;
static struct tkc_latch_reader latch_reader;
static struct tkc_clock clocks;
static struct tkc_counter counters[COUNTERS];
static uint64_t cycles = STEP;
static int faults, readings;

static void check(int is_right, const char *what)
{
	if (is_right)
		return;
	fprintf(stderr, "kept_reads: %s\n", what);
	faults++;
}

static uint64_t read_counter(void *context)
{
	(void)context;
	readings++;
	return cycles;
}

static void publish(void)
{
	struct tkc_snapshot snapshot;

	tkc_clock_snapshot(&snapshot, &clocks);
	tkc_page_publish_clock(&page, &clocks);
	tkc_latch_publish(&latch, &snapshot);
}

/* A counter whose reading lets a writer publish. */
static uint64_t read_and_publish(void *context)
{
	tkc_page_begin(&page);
	publish();
	return read_counter(context);
}

/* Moves REALTIME, so that each publication has another line. */
static void command(void)
{
	cycles += STEP;
	tkc_page_begin(&page);
	check(!tkc_clock_step(&clocks, cycles, 1, 7), "a command was refused");
	publish();
	cycles += STEP / 3;
}

/* Opens clocks, and makes a page, a latch and their readers anew. */
static void open_all(void)
{
	struct tkc_snapshot snapshot;

	check(!make_counters(counters) &&
	      !tkc_clock_open(&clocks, &counters[0], cycles, 1700000000, 0), "no clocks");
	tkc_clock_snapshot(&snapshot, &clocks);
	tkc_page_init_clock(&page, &clocks);
	tkc_latch_init(&latch, &snapshot);
	check(!tkc_page_reader_init(&reader, &page, TKC_CLOCK_REALTIME) &&
	      !tkc_latch_reader_init(&latch_reader, &latch, TKC_CLOCK_REALTIME), "no readers");
}

/* Returns REALTIME of clocks at the present reading. */
static struct tkc_time time_of(const struct tkc_clock *clock)
{
	struct tkc_time time = { -1, 0, 0 };
	struct tkc_snapshot snapshot;

	tkc_clock_snapshot(&snapshot, clock);
	check(!tkc_snapshot_get(&time, &snapshot, TKC_CLOCK_REALTIME, cycles), "no time");
	return time;
}

/* Reads the page or the latch, with this number of loads and the time of these clocks. */
static void read_page(const struct tkc_clock *clock, int wanted, const char *what)
{
	struct tkc_time time = { -1, 1, 1 }, right = time_of(clock);

	loads = 0;
	check(!tkc_page_reader_get(&reader, read_counter, NULL, &time) && loads == wanted &&
	      !memcmp(&time, &right, sizeof(time)), what);
}

static void read_latch(const struct tkc_clock *clock, int wanted, const char *what)
{
	struct tkc_time time = { -1, 1, 1 }, right = time_of(clock);

	loads = 0;
	check(!tkc_latch_reader_get(&latch_reader, read_counter, NULL, &time) && loads == wanted &&
	      !memcmp(&time, &right, sizeof(time)), what);
}

/* The words are loaded once for each publication. */
static void check_loads(void)
{
	open_all();
	for (int i = 0; i < TRIES; i++) {
		read_page(&clocks, RENEWED, "the page's first read after a publication");
		read_page(&clocks, KEPT, "the page's second read");
		read_latch(&clocks, RENEWED, "the latch's first read after a publication");
		read_latch(&clocks, KEPT, "the latch's second read");
		command();
	}
	command();
	read_page(&clocks, RENEWED, "the page's read after two publications");
	read_latch(&clocks, RENEWED, "the latch's read after two publications");
}

static uint32_t try_get(uint32_t tries, tkc_read_counter *counter)
{
	struct tkc_time time;

	readings = 0;
	return tkc_page_reader_try_get(&reader, tries, counter, NULL, &time);
}

/* No line is used while a writer is inside, or if one has published meanwhile. */
static void check_busy(int has_line)
{
	open_all();
	if (has_line)
		read_page(&clocks, RENEWED, "the page's first read");
	check(try_get(0, read_counter) == TKC_BUSY && !readings, "no try gave a time");
	tkc_page_begin(&page);
	check(try_get(TRIES, read_counter) == TKC_BUSY && !readings,
	      "a writer was inside, unnoticed");
	publish();
	check(!try_get(1, read_counter) && readings == 1, "a publication kept a reader out");
	check(try_get(TRIES, read_and_publish) == TKC_BUSY && readings == TRIES,
	      "not so many tries as were asked for");
	check(!try_get(1, read_counter), "a publication kept a reader out");
	read_page(&clocks, KEPT, "the page's read after these");
}

/* Inside a publication a latch has the former snapshot in copy 1, whose line isn't kept. */
static void check_odd_latch(int has_line)
{
	uint64_t words[TKC_LATCH_WORDS];
	struct tkc_clock former;

	open_all();
	if (has_line)
		read_latch(&clocks, RENEWED, "the latch's first read");
	former = clocks;
	tkc_words_load(latch.copies[1], words, TKC_LATCH_WORDS);
	command();
	tkc_words_store(latch.copies[1], words, TKC_LATCH_WORDS);
	latch.sequence = 1;
	for (int i = 0; i < 2; i++)
		read_latch(&former, RENEWED, "the latch's read inside a publication");
	latch.sequence = 2;
	read_latch(&clocks, RENEWED, "the latch's read after a publication");
	read_latch(&clocks, KEPT, "the latch's second read after a publication");
}

/* All bits of the sequence count, and it wraps. */
static void check_wrap(void)
{
	open_all();
	command();
	read_page(&clocks, RENEWED, "the page's read at sequence 2");
	read_latch(&clocks, RENEWED, "the latch's read at sequence 2");
	page.sequence += UINT64_C(1) << 32;
	latch.sequence += UINT64_C(1) << 32;
	read_page(&clocks, RENEWED, "the page's read 2^31 publications later");
	read_latch(&clocks, RENEWED, "the latch's read 2^31 publications later");
	page.sequence = UINT64_MAX - 1; /* like 2, it selects copy 1 */
	latch.sequence = UINT64_MAX - 1;
	read_page(&clocks, RENEWED, "the page's read at the last sequence");
	read_page(&clocks, KEPT, "the page's second read at the last sequence");
	read_latch(&clocks, RENEWED, "the latch's read at the last sequence");
	tkc_page_begin(&page);
	check(page.sequence == UINT64_MAX && try_get(1, read_counter) == TKC_BUSY,
	      "a writer was inside at the last sequence, unnoticed");
	command();
	check(page.sequence == 0 && latch.sequence == 0, "no sequence has wrapped");
	read_page(&clocks, RENEWED, "the page's read after the last sequence");
	read_page(&clocks, KEPT, "the page's second read after the last sequence");
	read_latch(&clocks, RENEWED, "the latch's read after the last sequence");
}

/* Publishes a copy that isn't a snapshot's: with another number in one word. */
static void publish_word(int place, uint64_t number)
{
	uint64_t words[TKC_PAGE_WORDS];

	tkc_clock_save(words, &clocks);
	words[place] = number;
	tkc_page_publish_words(&page, words);
}

static void check_codes(void)
{
	static const struct { int place; uint64_t number; uint32_t code; } rows[] = {
		{ TKC_WORDS, 7, TKC_BAD_BITS },		{ TKC_WORDS + 2, 33, TKC_BAD_SHIFT },
		{ TKC_WORDS + 1, 255, TKC_BAD_MULT },	{ TKC_WORDS + 1, UINT32_MAX, TKC_BAD_ADJUST },
		{ TKC_WORDS, UINT64_C(1) << 32, TKC_BAD_WORDS }, { 4, 946080000, TKC_BAD_WORDS },
	};
	struct tkc_time time;
	size_t i;

	open_all();
	for (i = 0; i < sizeof(rows) / sizeof(rows[0]); i++) {
		read_page(&clocks, RENEWED, "the page's read of right words");
		publish_word(rows[i].place, rows[i].number);
		for (int again = 0; again < 2; again++)
			check(tkc_page_reader_get(&reader, read_counter, NULL, &time) ==
				      rows[i].code && try_get(1, read_counter) == rows[i].code,
			      "faulty words gave another code");
		tkc_page_recover(&page, &clocks);
	}
	reader.kept.clock = 2;
	check(try_get(1, read_counter) == TKC_BAD_CLOCK, "clock 2 was read");
	reader.kept.clock = TKC_CLOCK_REALTIME;
	read_page(&clocks, RENEWED, "the page's read after clock 2");
}

/* Reads by the reading of the kept snapshot's counter, and returns which counter that is. */
static int read_changed(struct tkc_time *time, int wanted)
{
	uint64_t reading = 0;
	int which;

	loads = 0;
	check(!tkc_page_reader_look(&reader, read_counter, NULL, &reading) && reading == cycles &&
	      loads == wanted, "a look after a change of counter");
	which = counter_of(&reader.kept.snapshot);
	check(!tkc_kept_get(&reader.kept, readings_at(reading).of[which], time), "no time");
	return which;
}

/* The line follows the counter of the page's clocks. */
static void check_change(void)
{
	struct tkc_time before, after, later;

	open_all();
	cycles += STEP * 7;
	check(read_changed(&before, RENEWED) == 0, "another counter than the first one");
	tkc_page_begin(&page);
	check(!tkc_clock_change_counter(&clocks, cycles, &counters[1], readings_at(cycles).of[1]),
	      "a change was refused");
	publish();
	check(read_changed(&after, RENEWED) == 1, "another counter than the new one");
	check(!memcmp(&before, &after, sizeof(before)), "a change moved REALTIME");
	cycles += 7 * STEP;
	check(read_changed(&later, KEPT) == 1, "another counter than the new one");
	check(later.sec == after.sec && later.nsec - after.nsec >= 7 * STEP - 1 &&
	      later.nsec - after.nsec <= 7 * STEP, "another span by the new counter");
}

int main(void)
{
	check_loads();
	check_busy(0);
	check_busy(1);
	check_odd_latch(0);
	check_odd_latch(1);
	check_wrap();
	check_codes();
	check_change();
	if (faults)
		return EXIT_FAILURE;
	printf("kept_reads: each read by a line gave the answer that is known, with its loads\n");
	return EXIT_SUCCESS;
}
