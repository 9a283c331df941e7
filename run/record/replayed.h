/* SPDX-License-Identifier: MIT OR Apache-2.0 */
/* replayed.h - the clocks that tkcore has after the records of a script so far. */
#ifndef REPLAYED_H
#define REPLAYED_H

#include "recording.h"

struct replayed {
	bool is_steered;	/* by a discipline */
	struct tkc_clock clock; /* if they aren't steered */
	struct tkc_ntp ntp;	/* if they are */
};

/* Opens the clocks of a plan. */
void replayed_open(struct replayed *clocks, const struct plan *plan,
		   bool is_steered);

/* Does what tkcore does at the record of a row. */
void replayed_follow(struct replayed *clocks, const struct record_row *row);

/* Stores the words of the clocks: the first TKC_SAVED_WORDS, or all if they are
 * steered. The first word is the number of commands that tkcore has counted. */
void replayed_words(const struct replayed *clocks,
		    uint64_t words[TKC_NTP_SAVED_WORDS]);

#endif
