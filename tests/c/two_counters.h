/* SPDX-License-Identifier: MIT OR Apache-2.0 */
/*
 * Two counters that show one word of memory, the cycles of the first one: a cycle of the second one
 * lasts about 7 / 3 as long. A reader reads both at once, and takes the reading of the counter that
 * its snapshot is of.
 */
#ifndef TWO_COUNTERS_H
#define TWO_COUNTERS_H

#include <stdint.h>
#include <tkcore.h>

enum { COUNTERS = 2 };

/* The numbers of each counter: 1 GHz, and 3 / 7 of it. */
static const uint32_t counter_numbers[COUNTERS][3] = {
	{ 64, 1 << 23, 23 },
	{ 56, 2505397589, 30 },
};

/* What a reader reads at once. */
struct readings {
	uint64_t of[COUNTERS];
};

static inline struct readings readings_at(uint64_t cycles)
{
	return (struct readings){ { cycles, cycles / 7 * 3 + cycles % 7 * 3 / 7 } };
}

/* Returns TKC_OK, or the code of a counter that isn't made. */
static inline enum tkc_code make_counters(struct tkc_counter counters[COUNTERS])
{
	enum tkc_code code = TKC_OK;

	for (int i = 0; i < COUNTERS && !code; i++)
		code = tkc_counter_new(&counters[i], counter_numbers[i][0], counter_numbers[i][1],
				       counter_numbers[i][2]);
	return code;
}

/* Returns which counter a snapshot is of, or COUNTERS if its numbers are those of neither. */
static inline int counter_of(const struct tkc_snapshot *snapshot)
{
	struct tkc_counter counter;
	uint32_t numbers[3];
	int i;

	tkc_snapshot_counter(&counter, snapshot);
	tkc_counter_numbers(&numbers[0], &numbers[1], &numbers[2], &counter);
	for (i = 0; i < COUNTERS; i++)
		if (numbers[0] == counter_numbers[i][0] && numbers[1] == counter_numbers[i][1] &&
		    numbers[2] == counter_numbers[i][2])
			break;
	return i;
}

#endif
