/* SPDX-License-Identifier: MIT OR Apache-2.0 */
/* seeds.h - the seeds that --seed gives to what is random in a run. */
#ifndef SEEDS_H
#define SEEDS_H

#include "splitmix.h"

enum seed_use { SEED_WALKS, SEED_LINKS, SEED_TURNS, SEED_BYTES, SEED_FOLDER };

/* Returns the seed for a use. Those of two uses don't depend on each other. */
static inline uint64_t seed_for(uint64_t seed, enum seed_use use)
{
	return splitmix_mix(splitmix_mix(seed + 1) + ((uint64_t)use + 1) * SPLITMIX_STEP);
}

#endif
