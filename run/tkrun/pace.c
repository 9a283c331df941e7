/* SPDX-License-Identifier: MIT OR Apache-2.0 */
/* pace.c - how the counter of a node moves with the common counter of all nodes. */
#include "pace.h"

#include <math.h>

struct pace pace_of(long double factor)
{
	int exponent;
	long double part = frexpl(factor, &exponent);

	if (factor == 1)
		return (struct pace){ .scale = 1 };
	return (struct pace){ .scale = (uint64_t)(part * 0x1p63L),
			      .shift = (uint32_t)(63 - exponent) };
}

uint64_t pace_cycles(const struct pace *pace, uint64_t common)
{
	unsigned __int128 moved = common - pace->since;

	return pace->cycles + (uint64_t)(moved * pace->scale >> pace->shift);
}

/* No common counter gets further than half of 2^64. */
uint64_t pace_common(const struct pace *pace, uint64_t cycles)
{
	unsigned __int128 wanted = cycles - pace->cycles, most = ~(unsigned __int128)0;
	unsigned __int128 moved;

	if (wanted >= most >> 1 >> pace->shift)
		return UINT64_MAX / 2;
	moved = ((wanted << pace->shift) + pace->scale - 1) / pace->scale;
	if (moved > UINT64_MAX / 2 - pace->since)
		return UINT64_MAX / 2;
	return pace->since + (uint64_t)moved;
}
