/* SPDX-License-Identifier: MIT OR Apache-2.0 */
/* The jobs, done by calls of the library. */
#include "jobs.h"

#include <tkcore.h>

const int copies = 0;

static struct tkc_clock clock;
static struct tkc_snapshot snapshot;
static struct tkc_counter counter;
static struct tkc_line line;
static uint64_t words[TKC_WORDS];

static void need(uint32_t code)
{
	if (code)
		fail("a call was refused");
}

void open_clocks(void)
{
	need(tkc_counter_new(&counter, 64, MULT, SHIFT));
	need(tkc_clock_open(&clock, &counter, OPENED_AT, REAL, 0));
	tkc_clock_snapshot(&snapshot, &clock);
	need(tkc_snapshot_line(&line, &snapshot, TKC_CLOCK_MONOTONIC));
	tkc_snapshot_words(words, &snapshot);
}

void get_each(struct list *list)
{
	struct tkc_time time;

	for (size_t i = 0; i < list->count; i++) {
		need(tkc_snapshot_get(&time, &snapshot, TKC_CLOCK_MONOTONIC, list->stamps[i]));
		list->out[i] = (uint64_t)time.sec ^ time.nsec;
	}
}

/* Tests the words at each read, as a reader of a page does. */
void get_words_each(struct list *list)
{
	struct tkc_snapshot taken;
	struct tkc_time time;

	for (size_t i = 0; i < list->count; i++) {
		need(tkc_snapshot_from_words(&taken, &counter, words));
		need(tkc_snapshot_get(&time, &taken, TKC_CLOCK_MONOTONIC, list->stamps[i]));
		list->out[i] = (uint64_t)time.sec ^ time.nsec;
	}
}

void get_line_each(struct list *list)
{
	struct tkc_time time;

	for (size_t i = 0; i < list->count; i++) {
		if (!tkc_line_get(&time, &line, list->stamps[i]))
			fail("a reading is beyond the line");
		list->out[i] = (uint64_t)time.sec ^ time.nsec;
	}
}

void update_each(struct list *list)
{
	struct tkc_clock running = clock;
	struct tkc_snapshot updated;
	uint64_t reading = OPENED_AT, after[TKC_WORDS];

	for (size_t i = 0; i < list->count; i++)
		need(tkc_clock_apply(&running, reading += HZ / 1000000, TKC_CMD_UPDATE, 0, 0));
	tkc_clock_snapshot(&updated, &running);
	tkc_snapshot_words(after, &updated);
	for (size_t i = 0; i < 5; i++)
		list->out[i] = after[i];
	list->out[5] = after[8];
	list->out[6] = after[9];
}

void convert_all(struct list *list)
{
	size_t done;

	need(tkc_snapshot_convert(list->out, list->count, &done, &snapshot, TKC_CLOCK_MONOTONIC,
				  list->stamps, list->count));
}

void convert_untested(struct list *list)
{
	convert_all(list);
}

void copy_all(struct list *list)
{
	convert_all(list);
}
