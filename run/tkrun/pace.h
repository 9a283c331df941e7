/* SPDX-License-Identifier: MIT OR Apache-2.0 */
/* pace.h - how the counter of a node moves with the common counter of all nodes. */
#ifndef PACE_H
#define PACE_H

#include <stdint.h>

/* Since the common counter was `since`, a node's has moved on from `cycles` by scale / 2^shift
 * cycles for each of its units. */
struct pace {
	uint64_t since, cycles, scale;
	uint32_t shift;
};

/* Returns a factor as scale / 2^shift, which is below 2^63 / 2^shift. */
struct pace pace_of(long double factor);

/* Returns the cycles when the common counter is `common`. */
uint64_t pace_cycles(const struct pace *pace, uint64_t common);

/* Returns the first value of the common counter at which there are this number of cycles. */
uint64_t pace_common(const struct pace *pace, uint64_t cycles);

#endif
