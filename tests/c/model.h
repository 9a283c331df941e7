/* SPDX-License-Identifier: MIT OR Apache-2.0 */
/*
 * The clocks of tkcore.h in __int128: unbounded sums, no seconds and remainders. The model was
 * written from the header alone, and shares no code with the library.
 */
#ifndef MODEL_H
#define MODEL_H

#include <stdbool.h>
#include <stdint.h>
#include <tkcore.h>

__extension__ typedef unsigned __int128 u128;
__extension__ typedef __int128 i128;

#define NANOS ((i128)1000000000)

/* Running clocks, with the numbers of their counter. */
struct model {
	uint64_t mask, front, last;
	uint32_t mult, shift;
	u128 mono, raw; /* 2^-shift ns */
	i128 real, boot; /* minus MONOTONIC, ns */
	int64_t tai, frequency, tick;
	bool asleep;
};

/* Return the codes of tkc_counter_new, and of tkc_counter_from_hz and tkc_counter_from_khz. */
uint32_t model_counter(uint32_t bits, uint32_t mult, uint32_t shift);
uint32_t model_rate(uint32_t bits, uint64_t rate, uint32_t maxsec);

/* Stores the mult and the shift of a counter that model_rate accepts. The scale of a rate in Hz is
 * 1, and of a rate in kHz 1000. */
void model_scale(uint64_t scale, uint64_t rate, uint32_t maxsec, uint32_t *mult, uint32_t *shift);

/* Returns the code of tkc_counter_finest, and at TKC_OK stores the mult and the shift. */
uint32_t model_finest(uint32_t bits, uint64_t hz, uint32_t maxsec, uint32_t *mult, uint32_t *shift);

/* Makes awake clocks of a counter that model_counter accepts, at the reading 0 and the time 0. */
void model_open(struct model *model, uint32_t bits, uint32_t mult, uint32_t shift);

/* Applies a command. Returns its code, and leaves the model unchanged at a refusal. */
uint32_t model_apply(struct model *model, uint64_t reading, uint32_t command, int64_t number,
		     uint32_t nsec);

/* Changes the counter to that of other clocks, at its reading `first`. Returns the code, and leaves
 * the model unchanged at a refusal. */
uint32_t model_change_counter(struct model *model, uint64_t reading, const struct model *other,
			      uint64_t first);

/* Reads a clock. Returns the read's code, and at TKC_OK stores the time in ns. At another code the
 * stored number means nothing. */
uint32_t model_get(const struct model *model, uint32_t clock, uint64_t reading, i128 *time);

/* Finds the first reading at which a clock has reached a time. Returns its code, and at TKC_OK
 * stores the reading. */
uint32_t model_reading(const struct model *model, uint32_t clock, int64_t sec, uint32_t nsec,
		       uint64_t *reading);

/* Stores the ten words of the model. */
void model_words(const struct model *model, uint64_t words[TKC_WORDS]);

/* Makes the model that words represent. Returns whether they represent a snapshot. */
bool model_from_words(struct model *model, const uint64_t words[TKC_WORDS]);

/* Returns whether running clocks with the model's frequency and tick can have these words, which
 * represent the model. */
bool model_is_running(const struct model *model, const uint64_t words[TKC_WORDS]);

#endif
