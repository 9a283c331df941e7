/* SPDX-License-Identifier: MIT OR Apache-2.0 */
/* record.h - reads records of comma-separated fields, and the numbers in them. */
#ifndef RECORD_H
#define RECORD_H

#include <stdbool.h>
#include <stddef.h>
#include <stdint.h>

/* The most fields that a record of a script has: those of `openwords`, with its word. */
enum { FIELDS_MOST = 16 };

/* The part of a text that isn't read yet. */
struct reader {
	char *next, *end;
};

/* The text of a field, without its quotes. No NUL ends it. */
struct field {
	const char *text;
	size_t length;
};

/* Fields after the first FIELDS_MOST are only counted. */
struct record {
	size_t number, count;
	struct field fields[FIELDS_MOST];
};

/* Returns whether the field is this word. */
bool is_word(const struct field *field, const char *word);

/* Reads a record. Returns false at the end. Empty lines are no records. */
bool read_record(struct reader *reader, struct record *record);

/*
 * Store the number of a field in decimal. They return false if the field isn't
 * a number in the range of the type; a minus sign is allowed only in the last.
 */
bool parse_u64(const struct field *field, uint64_t *out);
bool parse_u32(const struct field *field, uint32_t *out);
bool parse_i64(const struct field *field, int64_t *out);

#endif
