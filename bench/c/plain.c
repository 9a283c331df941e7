/* SPDX-License-Identifier: MIT OR Apache-2.0 */
#include "plain.h"

static const uint64_t SECOND = 1000000000;

typedef unsigned __int128 u128;

/* The cycles since the last command, or 0 if the reading is behind it. */
static inline uint64_t cycles_since(const struct plain_clock *clock, uint64_t reading)
{
	uint64_t gap = (reading - clock->last) & clock->mask;

	return gap > clock->mask >> 1 ? 0 : gap;
}

static inline uint64_t nanoseconds(const struct plain_clock *clock, uint64_t reading)
{
	u128 units = (u128)cycles_since(clock, reading) * clock->mult + clock->frac;

	return clock->sec * SECOND + (uint64_t)(units >> clock->shift);
}

enum plain_code plain_get(struct plain_time *out, const struct plain_clock *clock, uint64_t reading)
{
	uint64_t time;

	if (reading > clock->mask)
		return PLAIN_INVALID;
	time = nanoseconds(clock, reading);
	out->sec = (int64_t)(time / SECOND);
	out->nsec = (uint32_t)(time % SECOND);
	return PLAIN_OK;
}

/* Adds cycles to an amount of seconds and units below a second. */
static inline void add(uint64_t *sec, uint64_t *frac, uint64_t cycles, uint32_t mult,
		       uint32_t shift)
{
	u128 units = (u128)cycles * mult + *frac;
	uint64_t second = SECOND << shift;

	if (units < second) {
		*frac = (uint64_t)units;
		return;
	}
	*sec += (uint64_t)(units / second);
	*frac = (uint64_t)(units % second);
}

enum plain_code plain_update(struct plain_clock *clock, uint64_t reading)
{
	uint64_t gap = (reading - clock->last) & clock->mask;

	if (reading > clock->mask)
		return PLAIN_INVALID;
	if (gap > clock->mask >> 1)
		return PLAIN_BEHIND;
	add(&clock->sec, &clock->frac, gap, clock->mult, clock->shift);
	add(&clock->raw_sec, &clock->raw_frac, gap, clock->raw_mult, clock->shift);
	clock->last = reading;
	clock->front++;
	return PLAIN_OK;
}

void plain_words(uint64_t words[PLAIN_WORDS], const struct plain_clock *clock)
{
	words[0] = clock->front;
	words[1] = clock->last;
	words[2] = clock->mult;
	words[3] = clock->frac;
	words[4] = clock->sec;
	words[5] = clock->real_offset;
	words[6] = clock->boot_offset;
	words[7] = clock->tai;
	words[8] = clock->raw_frac;
	words[9] = clock->raw_sec;
}

size_t plain_convert(uint64_t *out, const struct plain_clock *clock, const uint64_t *stamps,
		     size_t count)
{
	for (size_t i = 0; i < count; i++) {
		if (stamps[i] > clock->mask)
			return i;
		out[i] = nanoseconds(clock, stamps[i]);
	}
	return count;
}

void plain_loop(uint64_t *out, const struct plain_clock *clock, const uint64_t *stamps,
		size_t count)
{
	uint64_t last = clock->last, mask = clock->mask, half = mask >> 1;
	uint64_t mult = clock->mult, frac = clock->frac, base = clock->sec * SECOND;
	uint32_t shift = clock->shift;

	for (size_t i = 0; i < count; i++) {
		uint64_t gap = (stamps[i] - last) & mask;
		uint64_t cycles = gap > half ? 0 : gap;

		out[i] = base + ((cycles * mult + frac) >> shift);
	}
}
