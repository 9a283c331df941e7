/* SPDX-License-Identifier: MIT OR Apache-2.0 */
/* plan.h - how the clocks are opened, and the commands and requests of --script. */
#ifndef PLAN_H
#define PLAN_H

#include "options.h"

struct script;

/* The parts of a second into which the discipline divides phases, unless a script
 * says it: those of Debian's kernels. */
enum { TICKS_HZ = 250 };

/* The opening of the clocks, and the orders that are still to come. */
struct plan {
	struct tkc_counter counter;
	struct tkc_ntp clocks;
	double hz; /* the rate that the counter is described with */
	uint64_t first;
	int64_t open_sec, uptime_sec; /* REALTIME and MONOTONIC */
	uint32_t open_nsec, uptime_nsec;
	uint32_t ticks;	 /* the parts of a second */
	bool is_steered; /* a script opens clocks that are steered */
	struct order *orders; /* script.h says how one is a request */
	struct timex *requests;
	size_t count, next;
};

/* Makes the plan of the options. `hz` is the counter's own rate. The clocks of a node start with
 * `first`, and those of the program with the host's. At a wrong script or counter, ends tkrun with
 * a sentence. */
void plan_make(struct plan *plan, const struct options *options, double hz,
	       const struct plan *first);

/* Opens the clocks of a script, which have accepted no command. Returns false if they have. */
bool plan_open_script(struct plan *plan, const struct script *script);

/* Makes the opened clocks without their discipline, for a record. */
void plan_open_clock(const struct plan *plan, struct tkc_clock *clock);

/* Returns the cycles until the next order is due: 0 if it is, and NEVER if
 * there is none. */
uint64_t plan_left(const struct plan *plan, const struct machine *machine);

/* Applies the orders that are due. The caller has the lock. */
void plan_run(struct plan *plan, struct machine *machine);

#endif
