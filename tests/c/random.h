/* SPDX-License-Identifier: MIT OR Apache-2.0 */
/*
 * Random numbers for the tests (xorshift64). A program that isn't compiled anew
 * takes the same numbers from a seed in each run.
 */
#ifndef RANDOM_H
#define RANDOM_H

#include <stdbool.h>
#include <stdint.h>

/* Starts anew from a number, which must not be 0. */
void seed(uint64_t number);

/* Returns any number except 0. */
uint64_t any(void);

/* Returns a number below `end`. */
uint64_t below(uint64_t end);

/* Returns true about once in n calls. */
bool one_in(uint64_t n);

/* Returns a number of any size, often one at an edge. */
uint64_t some(void);

#endif
