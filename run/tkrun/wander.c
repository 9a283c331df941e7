/* SPDX-License-Identifier: MIT OR Apache-2.0 */
/* wander.c - the error of a node's counter, as a random walk. Equal seeds make equal walks. */
#include "wander.h"

#include "clocks/machine.h"
#include "splitmix.h"

/* From one step to the next. The error stays within PPM_MOST. */
static const uint64_t STEP_NANOS = 10 * (uint64_t)NANOS;
static const double PPM_MOST = 100000;

/* Returns a number for a name: FNV-1a of 64 bits. Nodes of one seed don't walk alike. */
static uint64_t number_of(const char *name)
{
	uint64_t number = 0xcbf29ce484222325;

	while (*name)
		number = (number ^ (unsigned char)*name++) * 0x100000001b3;
	return number;
}

struct wander wander_start(double step, uint64_t seed, const char *name)
{
	return (struct wander){ .next = step ? STEP_NANOS : NEVER,
				.state = step ? seed ^ number_of(name) : 0,
				.step = step };
}

bool wander_make_step(struct wander *wander, uint64_t common)
{
	double part;

	if (wander->next > common)
		return false;
	wander->state += SPLITMIX_STEP;
	part = (double)(int64_t)splitmix_mix(wander->state) * 0x1p-63; /* -1 to 1 */
	wander->ppm += part * wander->step;
	if (wander->ppm > PPM_MOST)
		wander->ppm = PPM_MOST;
	if (wander->ppm < -PPM_MOST)
		wander->ppm = -PPM_MOST;
	wander->next += STEP_NANOS;
	return true;
}
