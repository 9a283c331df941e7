/* SPDX-License-Identifier: MIT OR Apache-2.0 */
/* record.c - reads records of comma-separated fields. */
#include "record.h"

#include <string.h>

bool is_word(const struct field *field, const char *word)
{
	return field->length == strlen(word) &&
	       !memcmp(field->text, word, field->length);
}

static bool ends_record(char c)
{
	return c == '\n' || c == '\r';
}

/*
 * Copies the text between quotes to `to`, and returns the end of the copy. The
 * first quote was already read.
 */
static char *read_quoted(struct reader *reader, char *to)
{
	while (reader->next < reader->end) {
		char c = *reader->next++;

		if (c == '"') {
			if (reader->next == reader->end || *reader->next != '"')
				return to;
			reader->next++;
		}
		*to++ = c;
	}
	return to;
}

/* Reads a field. Returns whether another field follows in the record. */
static bool read_field(struct reader *reader, struct field *field)
{
	char *to = reader->next;

	field->text = to;
	if (reader->next < reader->end && *reader->next == '"') {
		reader->next++;
		to = read_quoted(reader, to);
	}
	while (reader->next < reader->end && *reader->next != ',' &&
	       !ends_record(*reader->next))
		*to++ = *reader->next++;
	field->length = (size_t)(to - field->text);
	return reader->next < reader->end && *reader->next++ == ',';
}

bool read_record(struct reader *reader, struct record *record)
{
	struct field field;
	bool more = true;

	while (reader->next < reader->end && ends_record(*reader->next))
		reader->next++;
	if (reader->next == reader->end)
		return false;
	record->number++;
	for (record->count = 0; more; record->count++) {
		more = read_field(reader, &field);
		if (record->count < FIELDS_MOST)
			record->fields[record->count] = field;
	}
	return true;
}

/* Stores the number of a text that is only digits. Returns false if it isn't
 * one, or is above `most`. */
static bool parse_digits(const char *text, size_t length, uint64_t most,
			 uint64_t *out)
{
	uint64_t value = 0;

	if (!length)
		return false;
	for (size_t i = 0; i < length; i++) {
		unsigned int digit = (unsigned char)text[i] - '0';

		if (digit > 9 || value > (most - digit) / 10)
			return false;
		value = value * 10 + digit;
	}
	*out = value;
	return true;
}

bool parse_u64(const struct field *field, uint64_t *out)
{
	return parse_digits(field->text, field->length, UINT64_MAX, out);
}

bool parse_u32(const struct field *field, uint32_t *out)
{
	uint64_t value;

	if (!parse_digits(field->text, field->length, UINT32_MAX, &value))
		return false;
	*out = (uint32_t)value;
	return true;
}

bool parse_i64(const struct field *field, int64_t *out)
{
	bool is_negative = field->length && *field->text == '-';
	uint64_t most = (uint64_t)INT64_MAX + is_negative;
	uint64_t value;

	if (!parse_digits(field->text + is_negative,
			  field->length - is_negative, most, &value))
		return false;
	*out = is_negative ? (int64_t)(0 - value) : (int64_t)value;
	return true;
}
