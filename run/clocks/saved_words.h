/* SPDX-License-Identifier: MIT OR Apache-2.0 */
/* saved_words.h - places in the words of tkc_ntp_save, which tkcore.h describes. The first
 * TKC_SAVED_WORDS are those of tkc_clock_save, and the first TKC_WORDS those of a snapshot. */
#ifndef SAVED_WORDS_H
#define SAVED_WORDS_H

#include <stdbool.h>

enum saved_word {
	SAVED_LAST = 1,	     /* the reading of the last command */
	SAVED_PART = 3,	     /* MONOTONIC's ns there, in 2^-shift ns */
	SAVED_SECOND = 4,    /* MONOTONIC's second there */
	SAVED_REAL_OFFSET = 5,
	SAVED_BITS = 10,     /* of the counter */
	SAVED_MULT = 11,
	SAVED_SHIFT = 12,
	SAVED_FREQUENCY = 13,
	SAVED_TICK = 14,
	SAVED_HZ = 15,	     /* of the discipline */
	SAVED_STATE = 17,    /* enum tkc_time_state */
	SAVED_PHASE = 20,
	SAVED_GAIN = 25,     /* of the frequency, in a second */
	SAVED_ADJTIME = 27,
	SAVED_SECOND_PHASE = 28,
};

/* Returns whether a word is an int64_t. */
static inline bool is_signed_word(int place)
{
	switch (place) {
	case SAVED_FREQUENCY:
	case SAVED_TICK:
	case SAVED_PHASE:
	case SAVED_GAIN:
	case SAVED_ADJTIME:
	case SAVED_SECOND_PHASE:
		return true;
	default:
		return false;
	}
}

#endif
