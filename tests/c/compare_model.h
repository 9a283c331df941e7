/* SPDX-License-Identifier: MIT OR Apache-2.0 */
/* What the files of compare_model.c share. */
#ifndef COMPARE_MODEL_H
#define COMPARE_MODEL_H

#include "model.h"

/* Counts a check, and ends the program if it doesn't hold. */
#define CHECK(condition) check(condition, #condition, __FILE__, __LINE__)
void check(bool holds, const char *condition, const char *file, int line);

/* The numbers of a counter. */
struct numbers {
	uint32_t bits, mult, shift;
};

/* Makes a counter from its rate or from its numbers, stores its numbers, and computes with its
 * cycles. Returns whether the numbers describe a counter. */
bool make_counter(struct tkc_counter *counter, struct numbers *numbers, bool has_rate);

/* Compares the clocks with the model by their words. */
void compare_words(const struct tkc_clock *clock, const struct model *model);

/* Returns any reading, most often one after the last command. */
uint64_t reading_near(const struct model *model);

/* Applies a random command, and compares the result. */
void try_command(struct tkc_clock *clock, struct model *model);

/* Changes the counter to one of random numbers, which is stored if the change is accepted. */
void try_change(struct tkc_clock *clock, struct model *model, struct tkc_counter *counter);

/* Compares the clocks at their last command, and a random step that isn't made, with the model. */
void compare_queries(const struct tkc_snapshot *snapshot, const struct model *model);

/* Compares the line of a clock, if there is one of that number, with the model. */
void compare_line(const struct tkc_snapshot *snapshot, const struct model *model, uint32_t clock);

#endif
