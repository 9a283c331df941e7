/* SPDX-License-Identifier: MIT OR Apache-2.0 */
/*
 * include/tkcore_page.h over a machine that page_model.c simulates: each load, store and fence of
 * the header is a call of the machine. The library's part is replaced by clocks that are only a
 * number. A copy of a page has 5 words, and a copy of a latch 3, which all contain this number.
 */
#ifndef PAGE_MODEL_H
#define PAGE_MODEL_H

#include <stdatomic.h>
#include <stddef.h>
#include <stdint.h>

uint64_t model_load(const _Atomic uint64_t *word, memory_order order);
void model_store(_Atomic uint64_t *word, uint64_t value, memory_order order);
void model_fence(memory_order order);

/* Reads the counter. A command also makes new clocks from others, and returns their number. */
uint64_t model_counter(void *context);
uint32_t model_command(uint32_t clock);

/* Returns any number below `count`, which needs no step of the machine. */
uint32_t model_any(uint32_t count);

/* Prints what is wrong, and ends the process. */
_Noreturn void fail(const char *what);

#define TKC_H /* instead of the library's header */
#define TKC_WORDS 0
#define TKC_SAVED_WORDS 5

enum tkc_code { TKC_OK, TKC_BAD_WORDS };

struct tkc_counter {
	uint32_t number;
};

struct tkc_snapshot {
	uint32_t number;
};

struct tkc_clock {
	uint32_t number;
};

struct tkc_time {
	int64_t sec;
	uint32_t nsec;
};

struct tkc_line {
	uint32_t number;
};

static inline enum tkc_code tkc_counter_new(struct tkc_counter *out, uint32_t bits, uint32_t mult,
					    uint32_t shift)
{
	if (bits != mult || bits != shift)
		fail("a mixture of two snapshots");
	out->number = bits;
	return TKC_OK;
}

static inline void tkc_counter_numbers(uint32_t *bits, uint32_t *mult, uint32_t *shift,
				       const struct tkc_counter *counter)
{
	*bits = *mult = *shift = counter->number;
}

static inline enum tkc_code tkc_snapshot_from_words(struct tkc_snapshot *out,
						    const struct tkc_counter *counter,
						    const uint64_t *words)
{
	(void)words;
	out->number = counter->number;
	return TKC_OK;
}

static inline void tkc_snapshot_words(uint64_t *words, const struct tkc_snapshot *snapshot)
{
	(void)words;
	(void)snapshot;
}

static inline void tkc_snapshot_counter(struct tkc_counter *out,
					const struct tkc_snapshot *snapshot)
{
	out->number = snapshot->number;
}

static inline enum tkc_code tkc_snapshot_get(struct tkc_time *out,
					     const struct tkc_snapshot *snapshot, uint32_t clock,
					     uint64_t reading)
{
	(void)clock;
	(void)reading;
	out->sec = snapshot->number;
	return TKC_OK;
}

static inline enum tkc_code tkc_snapshot_line(struct tkc_line *out,
					      const struct tkc_snapshot *snapshot, uint32_t clock)
{
	(void)clock;
	out->number = snapshot->number;
	return TKC_OK;
}

static inline int tkc_line_get(struct tkc_time *out, const struct tkc_line *line, uint64_t reading)
{
	(void)reading;
	out->sec = line->number;
	return 1;
}

static inline int tkc_line_ns(uint64_t *out, const struct tkc_line *line, uint64_t reading)
{
	(void)reading;
	*out = line->number;
	return 1;
}

static inline void tkc_clock_snapshot(struct tkc_snapshot *out, const struct tkc_clock *clock)
{
	out->number = clock->number;
}

static inline void tkc_clock_save(uint64_t *words, const struct tkc_clock *clock)
{
	for (int i = 0; i < TKC_SAVED_WORDS; i++)
		words[i] = clock->number;
}

static inline enum tkc_code tkc_clock_load(struct tkc_clock *out, const uint64_t *words)
{
	for (int i = 1; i < TKC_SAVED_WORDS; i++)
		if (words[i] != words[0])
			fail("clocks from a mixture of two publications");
	out->number = (uint32_t)words[0];
	return TKC_OK;
}

#undef atomic_load_explicit
#undef atomic_store_explicit
#undef atomic_thread_fence
#define atomic_load_explicit(word, order) model_load(word, order)
#define atomic_store_explicit(word, value, order) model_store(word, value, order)
#define atomic_thread_fence(order) model_fence(order)
#include <tkcore_page.h>

#endif
