/* SPDX-License-Identifier: MIT OR Apache-2.0 */
/* wander.h - the error of a node's counter, as a random walk. */
#ifndef WANDER_H
#define WANDER_H

#include <stdbool.h>
#include <stdint.h>

/* The walk of a counter. Its next step is at `next` ns of the common counter, or NEVER. */
struct wander {
	uint64_t next, state;
	double step, ppm; /* the greatest change at a step, and the sum of all so far */
};

/* Starts the walk of the node with this name. Without a step, there is none. */
struct wander wander_start(double step, uint64_t seed, const char *name);

/* Makes the next step if it is due. Returns whether it was. */
bool wander_make_step(struct wander *wander, uint64_t common);

#endif
