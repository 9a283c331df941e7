/* SPDX-License-Identifier: MIT OR Apache-2.0 */
/* What worked_changes.c and worked_refused_changes.c share. */
#ifndef WORKED_CHANGES_H
#define WORKED_CHANGES_H

#include "worked_rows.h"

/* The counters of the changes. worked_changes.c has their numbers, in this
 * order. */
enum counter {
	NANOSECOND, /* a cycle is a nanosecond */
	WIDE, /* a cycle is 4,194,304 nanoseconds */
	FINE, /* a cycle is about 0.698 nanoseconds */
	EXACT, /* at its slowest rate a cycle adds exactly 0.8995 of its length */
	SLOW, /* at its slowest rate a cycle adds a little less */
	NARROW, /* a cycle is 256 nanoseconds, with readings of 8 bits */
	MILLISECOND, /* a cycle is a millisecond, with readings of 8 bits */
	HALVES, /* a cycle is 500 nanoseconds, and the units are halves */
	WHOLE, /* a cycle is 1,000 nanoseconds, and the units are whole */
	COARSE, /* as HALVES, with readings of 16 bits */
	HALF, /* a cycle is half a nanosecond */
};

/* A change of counter, and the code that it returns. */
struct change {
	uint64_t reading;
	enum counter counter;
	uint64_t first;
	uint32_t code;
};

/* A read of clocks, and the time that it gives. */
struct timed_read {
	uint32_t clock;
	uint64_t reading;
	int64_t sec;
	uint32_t nsec;
};

/* Returns clocks that were opened at a reading, `sec` s after 1970. */
struct tkc_clock opened_at(enum counter number, uint64_t reading, int64_t sec);

/* Changes the counter, which must return the row's code. A refused change must
 * leave the clocks as they were. After an accepted one, their words give them
 * back over the new counter. */
void change(struct tkc_clock *clock, const struct change *row);

/* Reads a clock, which must give the row's time. */
void read_row(const struct tkc_clock *clock, const struct timed_read *row);

#endif
