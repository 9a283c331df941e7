/* SPDX-License-Identifier: MIT OR Apache-2.0 */
/*
 * Tests the calls of another language on a page and a latch against tkcore_page.h, at each of their
 * stores and loads. A page of memory that can't be accessed stops them there (deaths_stops.c).
 *
 * The page is at the start of the memory, and the latch follows it. The clocks open at reading 0 of
 * the first counter below, with REALTIME at 1700000000 s. Each command depends only on the front,
 * at the reading 1000 * (front + 1), by the remainder of the front divided by 4:
 *   0  FREQ of front % 1000 * 32768          2  TAI_OFFSET of front % 1000
 *   1  TICK of 9000 + front % 2000           3  a change to the other counter, at this reading too
 */
#ifndef DEATHS_H
#define DEATHS_H

#include <stddef.h>
#include <stdint.h>
#include <tkcore_page.h>

enum deaths_act {
	DEATHS_CREATE, /* makes the page and the latch from the clocks that open */
	DEATHS_CREATE_SNAPSHOT, /* the same, with a page of a snapshot only */
	DEATHS_PUBLISH_SNAPSHOT, /* publishes the opening's snapshot on the page, without a begin */
	DEATHS_LIVE, /* takes over, and does `count` commands, each on the page and then the latch */
};

enum deaths_read { DEATHS_CLOCK, DEATHS_PAGE_READ, DEATHS_PAGE_LOOK, DEATHS_LATCH_READ,
		   DEATHS_LATCH_LOOK, DEATHS_READS };

/* The calls of a language. */
typedef void deaths_act_call(void *memory, uint64_t act, uint64_t count);

/* Stores the words of a snapshot and the numbers of its counter. Returns 0, or the code. */
typedef uint64_t deaths_read_call(void *memory, uint64_t read, uint64_t words[TKC_LATCH_WORDS]);

/* Runs all tests. Ends the process with status 1 if one fails. */
void deaths_run(const char *language, deaths_act_call *act, deaths_read_call *read);

/* What the files of the test share. */

enum { DEATHS_SIZE = 4096, COUNTERS = 2, FRONTS = 3000 /* more than are published */ };

_Noreturn void fail(const char *what);

/* What tkcore_page.h itself does for an act. */
void act_in_c(void *memory, uint64_t act, uint64_t count);
void open_clocks(struct tkc_clock *clock);
void command(struct tkc_clock *clock);

/* Notes the words of each front. `front_of` returns the front of words, which must be noted. */
void note_all(void);
uint64_t front_of(const uint64_t *words);

/* Maps the memory twice: where accesses can be stopped, and where they can't. */
void map_memory(void);
extern void *memory, *alias;

/* Calls this before each store to the memory, or before each access, with the number of former ones
 * and the place of the word. `stop_accesses` with NULL lets them pass again. */
typedef void stop_call(int number, size_t place);
void stop_accesses(stop_call *call, int loads_too);

/* A store: the place of its word, and its value. */
struct stored {
	size_t place;
	uint64_t value;
};

enum { STORES = 4096 };

/* Those since the last `stop_accesses`. */
extern struct stored stores[STORES];
extern int store_count;

#endif
