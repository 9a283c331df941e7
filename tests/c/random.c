/* SPDX-License-Identifier: MIT OR Apache-2.0 */
#include "random.h"

static uint64_t state = 88172645463325252;

void seed(uint64_t number)
{
	state = number;
}

uint64_t any(void)
{
	state ^= state << 13;
	state ^= state >> 7;
	state ^= state << 17;
	return state;
}

uint64_t below(uint64_t end)
{
	return any() % end;
}

bool one_in(uint64_t n)
{
	return !below(n);
}

uint64_t some(void)
{
	uint64_t power = (uint64_t)1 << below(64);

	switch (below(6)) {
	case 0:
		return any();
	case 1:
		return below(1000);
	case 2:
		return 0 - below(1000);
	case 3:
		return any() >> below(64);
	default:
		return power - 1 + below(3);
	}
}
