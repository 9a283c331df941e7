/* SPDX-License-Identifier: MIT OR Apache-2.0 */
/* What the files of page_death.c share. */
#ifndef PAGE_DEATH_H
#define PAGE_DEATH_H

#include <stdatomic.h>
#include <stdint.h>
#include <sys/types.h>

/* Is called before each store of the header by the life. */
void at_store(void);

/* Does a store of the header. */
static inline void store(_Atomic uint64_t *word, uint64_t value, memory_order order)
{
	at_store();
	atomic_store_explicit(word, value, order);
}

#undef atomic_store_explicit
#define atomic_store_explicit(word, value, order) store(word, value, order)
#include <tkcore_page.h>

#include "two_counters.h"

enum {
	/* The stores of each call, and of a command and a takeover. */
	BEGIN = 1,
	PUBLISH = TKC_PAGE_WORDS + 1,
	LATCH = 2 * (1 + TKC_LATCH_WORDS),
	COMMAND = BEGIN + PUBLISH + LATCH,
	TAKEOVER = BEGIN + PUBLISH + TKC_LATCH_WORDS + LATCH,
	PAGE_INIT = 1 + 2 * TKC_PAGE_WORDS + 2,
	LATCH_INIT = 1 + 2 * TKC_LATCH_WORDS + 2,

	READERS = 3, /* the last one reads the latch, the others the page */
	PAIRS = (COMMAND + 1) * TAKEOVER,
	COMMANDS = 300, /* of the life after these */
	FRONTS = PAIRS + COMMANDS + 1,
	CYCLES = 1000000007, /* from one command to the next; a cycle is a nanosecond */
	CHANGE = 100, /* the number of a change of counter, which is no command's */
	LIMIT_SEC = 20, /* for the readers to end */
	LIMIT_ALL_SEC = 200, /* for all, which takes a few seconds */
};

/* The memory that all processes share. */
struct shared {
	struct tkc_page page;
	struct tkc_latch latch;
	_Atomic uint64_t cycles; /* what the counter shows */
	_Atomic int is_done;
	_Atomic uint64_t last_front; /* known when the lives are done */
	/* of the snapshot with this front, with its counter */
	_Atomic uint64_t words_of[FRONTS][TKC_LATCH_WORDS];
};

extern struct shared *shared;
extern struct tkc_counter counters[COUNTERS];

/* How far a writer's life has come. */
struct life {
	int place; /* the store before which it dies, or -1 */
	int checks; /* what readers find before each store */
	int stores; /* that it has done */
	int page, latch; /* the first store of its present publication on each */
	uint64_t page_front, latch_front; /* before its present publication on each */
	uint64_t front; /* of its present publication */
};

extern struct life life;

/* Prints what is wrong, and ends the process. */
_Noreturn void fail(const char *what);

uint64_t read_counter(void *context);

/* Return the front of a snapshot, whose words and counter must be those of one publication: of any
 * one, or of the one that the page or the latch has. */
uint64_t front_of(const struct tkc_snapshot *snapshot);
uint64_t page_front(void);
uint64_t latch_front(void);

/* Notes the words of a snapshot before it is published. */
void note(const struct tkc_clock *clock);

/* Takes over at the front that the page must have, and applies commands. */
void live(int number, int place, uint64_t front, int commands);

/* Starts a process that ends with this one. Returns 0 in it. */
pid_t start(void);

/* Start the readers, and wait until they end, which they must do now. */
void start_readers(pid_t readers[READERS]);
void await_readers(const pid_t readers[READERS]);

#endif
