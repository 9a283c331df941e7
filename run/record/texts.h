/* SPDX-License-Identifier: MIT OR Apache-2.0 */
/* texts.h - records of scripts as text, without the end of their lines. */
#ifndef TEXTS_H
#define TEXTS_H

#include "clocks/rows.h"

#include <stdio.h>

/* Each of these writes a record, and returns its bytes. A read that gave no time has no value. */
int text_read(FILE *file, uint64_t reading, uint32_t clock, const struct tkc_time *value);
int text_command(FILE *file, uint64_t reading, uint32_t command, int64_t number, uint32_t nsec);
int text_request(FILE *file, uint64_t reading, const struct asked_words *asked);

/* Return the words of tkcore for a clock and for a refusal. */
const char *text_clock(uint32_t clock);
const char *text_refusal(uint32_t code);

#endif
