/* SPDX-License-Identifier: MIT OR Apache-2.0 */
/* The simulated machine of page_model.c, and the scenes that it runs. */
#ifndef PAGE_MODEL_STATE_H
#define PAGE_MODEL_STATE_H

#include "page_model.h"

#include <setjmp.h>

enum {
	WRITERS = 2,
	READER = WRITERS,
	THREADS,
	CLOCKS = 1 + WRITERS, /* the first ones, and those of each writer's command */
	READS = 2,
	KEPT_READS = 3, /* of the readers of a page that keep lines */
	KEEPERS = 2, /* readers that keep a line: it is as if they passed what they read to one another */
	TICKS = 1, /* of the counter */
	PLACES = 2 + 2 * TKC_PAGE_WORDS, /* the words of a page */
	SEQUENCE = 1, /* is the place of the sequence */
	STORES = 16, /* to one word */
	STEPS = 150, /* of a writer */
	LAYOUT = 255, /* stands for the number of a layout */
	SCENES = 9,
};

enum progress { WAITS, RUNS, ENDED };

/* A value that was stored, and what a thread learns from it: a number of values of each word. */
struct value {
	uint8_t value, view[PLACES];
};

/* What a reader keeps between two reads. */
struct keeper {
	uint8_t sequence, number;
};

struct thread {
	uint8_t progress, steps;
	uint8_t known[PLACES]; /* the newest value that it knows of */
	uint8_t loaded[PLACES]; /* what an acquire fence adds to it */
	uint8_t released[PLACES]; /* what it knew at its last release fence */
	uint8_t results[STEPS];
};

struct state {
	uint8_t counts[PLACES];
	struct value values[PLACES][STORES];
	uint8_t fenced[PLACES]; /* what full fences made visible to all */
	uint8_t cycles, reads, front, time; /* of the reader: its latest front and time */
	struct keeper keepers[KEEPERS];
	uint8_t fronts[CLOCKS], at[CLOCKS], times[CLOCKS]; /* of clocks, at their command */
	struct thread threads[THREADS];
};

/* What the threads do. */
struct scene {
	const char *name;
	void (*write)(int writer);
	int (*read)(uint32_t *number, uint64_t *reading);
	int is_latch, has_times, starts_empty, reads;
};

extern struct tkc_page page;
extern struct tkc_latch latch;
extern const struct scene scenes[SCENES];
extern const struct scene *scene;

/* The step that is simulated: which thread makes it, and with which of its results. */
extern struct state *now;
extern int running, choice;

/* Of the step: how many results it has; which steps of the thread were made again; whether the new
 * one was made; and whether it was a load, a store or a fence that isn't a full one. */
extern int choices, position, is_done, is_alone;
extern jmp_buf next_step;

/* Returns the time of clocks at a reading. */
uint8_t time_of(uint32_t clock, uint64_t reading);

#endif
