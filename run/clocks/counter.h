/* SPDX-License-Identifier: MIT OR Apache-2.0 */
/* counter.h - the counter of the clocks, by the host's, and the clocks' resolution. */
#ifndef COUNTER_H
#define COUNTER_H

#include "machine.h"

/* The host's clock_gettime, whoever makes the call. */
typedef int host_clock(clockid_t, struct timespec *);

/* Keeps what follows from running before the counter is read: the vDSO too
 * orders rdtsc only after what precedes it. */
static inline void fence_reading(void)
{
	__asm__ volatile("lfence" ::: "memory");
}

/*
 * Returns the word itself, by an address that depends on the reading. So the
 * processor can't load the word before the counter is read, and no fence has to
 * wait for it. `and` isn't one of the instructions whose result the processor
 * knows without their operand.
 */
static inline const tkc_word *after(const tkc_word *word, uint64_t reading)
{
	__asm__("and $0, %0" : "+r"(reading));
	return word + reading;
}

/* Stores a line as its words, and loads it. */
static inline void line_store(tkc_word *words, const struct tkc_line *line)
{
	const uint64_t numbers[LINE_WORDS] = {
		line->last, line->mask, line->span, line->sec, line->frac,
		(uint64_t)line->shift << 32 | line->mult
	};

	tkc_words_store(words, numbers, LINE_WORDS);
}

/* (A loop would put the words into memory.) */
static inline struct tkc_line line_load(const tkc_word *words)
{
	uint64_t rate = atomic_load_explicit(&words[5], memory_order_relaxed);

	return (struct tkc_line){
		.last = atomic_load_explicit(&words[0], memory_order_relaxed),
		.mask = atomic_load_explicit(&words[1], memory_order_relaxed),
		.span = atomic_load_explicit(&words[2], memory_order_relaxed),
		.sec = atomic_load_explicit(&words[3], memory_order_relaxed),
		.frac = atomic_load_explicit(&words[4], memory_order_relaxed),
		.mult = (uint32_t)rate,
		.shift = (uint32_t)(rate >> 32),
	};
}

/* Returns the TSC, or MONOTONIC_RAW in ns. Loads that follow may run before. */
static inline uint64_t early_host(enum counter_kind kind, host_clock *gettime)
{
	struct timespec raw;
	uint32_t low, high;

	if (kind != COUNTER_TSC) {
		gettime(CLOCK_MONOTONIC_RAW, &raw);
		return (uint64_t)raw.tv_sec * NANOS + (uint64_t)raw.tv_nsec;
	}
	__asm__ volatile("lfence; rdtsc" : "=a"(low), "=d"(high)::"memory");
	return (uint64_t)high << 32 | low;
}

/* Returns the counter's reading, for machine_early_reading. */
static inline uint64_t early_reading(const struct shared_page *shared,
				     host_clock *gettime)
{
	unsigned __int128 moved;

	if (shared->kind == COUNTER_SLEEPS)
		return (shared->first + atomic_load(&shared->cycles)) &
		       shared->mask;
	moved = early_host(shared->kind, gettime) - shared->base;
	if (shared->scale != 1)
		moved = moved * shared->scale >> shared->scale_shift;
	return (shared->first + (uint64_t)moved) & shared->mask;
}

/* Returns the resolution of a clock that the machine answers for. */
static inline struct timespec machine_resolution(const struct shared_page *shared, clockid_t clock)
{
	bool is_coarse = clock == CLOCK_REALTIME_COARSE || clock == CLOCK_MONOTONIC_COARSE;

	return (struct timespec){ 0, is_coarse ? (long)shared->update_nanos : 1 };
}

#endif
