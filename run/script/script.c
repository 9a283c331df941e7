/* SPDX-License-Identifier: MIT OR Apache-2.0 */
/* script.c - reads scripts of tkcore, whose records the library parses. */
#define _GNU_SOURCE
#include "script.h"

#include "clocks/rows.h"

#include <stdio.h>
#include <stdlib.h>
#include <string.h>

static const char NO_MEMORY[] = "out of memory";

/* A script of which some lines are parsed. The session has carried out the first record only,
 * because the others may take minutes if clocks are steered. */
struct parser {
	struct script *script;
	const char *next, *end;
	size_t record; /* the number of the last one */
	struct tkc_session session;
	struct tkc_text text;
};

char *script_read(const char *path, size_t *length)
{
	char *text = malloc(SCRIPT_LIMIT + 1);
	FILE *file = text ? fopen(path, "re") : NULL;
	bool is_read = false;

	if (file) {
		*length = fread(text, 1, SCRIPT_LIMIT + 1, file);
		is_read = !ferror(file);
		fclose(file);
	}
	if (is_read)
		return text;
	free(text);
	return NULL;
}

/* Makes room for one more element of a list, whose room is a power of two. */
static bool grow(void **list, size_t count, size_t size)
{
	void *larger;

	if (count & (count - 1))
		return true;
	larger = realloc(*list, (count ? 2 * count : 1) * size);
	if (larger)
		*list = larger;
	return larger;
}

static bool ends_line(char byte)
{
	return byte == '\n' || byte == '\r';
}

/* Finds the next line that isn't empty. Returns its length, or 0 at the end. */
static size_t next_line(struct parser *parser, const char **line)
{
	while (parser->next < parser->end && ends_line(*parser->next))
		parser->next++;
	*line = parser->next;
	while (parser->next < parser->end && !ends_line(*parser->next))
		parser->next++;
	return (size_t)(parser->next - *line);
}

/* Lets the session carry out a record. Returns the fault, or NULL. The session counts a record that
 * isn't the first one as the second, so this leaves out the number. */
static const char *carry_out(struct parser *parser, const char *line, size_t length)
{
	struct tkc_text *text = &parser->text;
	uint32_t code = tkc_session_record(&parser->session, text, line, length);
	const char *fault;

	if (code == TKC_NOT_PLAIN)
		return "not a plain line: it has a quote or a byte order mark";
	if (!code)
		return NULL;
	text->bytes[text->length < TKC_TEXT_ROOM ? text->length : TKC_TEXT_ROOM - 1] = 0;
	fault = strchr((const char *)text->bytes, ':');
	return fault ? fault + strlen(": ") : (const char *)text->bytes;
}

static const char *add_opening(struct parser *parser, const char *line, size_t length)
{
	const char *wrong = carry_out(parser, line, length);

	if (!wrong)
		parser->script->word_count =
			tkc_session_save(parser->script->words, &parser->session);
	return wrong;
}

/* Adds an order. Returns a fault, or NULL. */
static const char *add_order(struct script *script, struct order order)
{
	if (!grow((void **)&script->orders, script->count, sizeof(*script->orders)))
		return NO_MEMORY;
	script->orders[script->count++] = order;
	return NULL;
}

static const char *add_request(struct script *script, const struct tkc_row *row)
{
	struct order order = { .reading = row->reading, .command = ROW_REQUEST,
			       .number = (int64_t)script->request_count };

	_Static_assert(sizeof(struct timex) == sizeof(row->timex), "the layout of struct timex");
	if (script->word_count < TKC_NTP_SAVED_WORDS)
		return "adjtimex, but HZ isn't in the first record";
	if (!grow((void **)&script->requests, script->request_count, sizeof(*script->requests)))
		return NO_MEMORY;
	memcpy(&script->requests[script->request_count++], &row->timex, sizeof(row->timex));
	return add_order(script, order);
}

static const char *add_read(struct script *script, const struct tkc_row *row)
{
	struct order order = { row->reading, ROW_READ + row->clock,
			       (uint32_t)(row->value % NANOS), (int64_t)(row->value / NANOS) };

	return script->keeps_reads ? add_order(script, order) : NULL;
}

/* Adds a record after the first one. Returns a fault, or NULL. */
static const char *add_record(struct parser *parser, const char *line, size_t length)
{
	struct script *script = parser->script;
	struct tkc_row row;

	if (tkc_row_parse(&row, parser->record, line, length))
		return carry_out(parser, line, length);
	switch (row.kind) {
	case TKC_ROW_REQUEST:
		return add_request(script, &row);
	case TKC_ROW_READ:
		return add_read(script, &row);
	case TKC_ROW_COUNTER:
		return "tkrun can't change the counter";
	default:
		return add_order(script, (struct order){ row.reading, row.command, row.nsec,
							 row.number });
	}
}

/* Adds all records. Returns a fault, or NULL. */
static const char *add_records(struct parser *parser)
{
	const char *wrong = NULL, *line;
	size_t length;

	while (!wrong && (length = next_line(parser, &line)))
		wrong = ++parser->record == 1 ? add_opening(parser, line, length)
					      : add_record(parser, line, length);
	return parser->record ? wrong : "no record";
}

bool script_parse(struct script *script, const char *text, size_t length, struct fault *fault)
{
	struct parser parser = { .script = script, .next = text, .end = text + length,
				 .session = tkc_session_begin() };
	const char *wrong = length > SCRIPT_LIMIT ? "larger than 16777216 bytes"
						  : add_records(&parser);

	if (!wrong)
		return true;
	fault->record = wrong == NO_MEMORY ? 0 : parser.record;
	snprintf(fault->text, sizeof(fault->text), "%s", wrong);
	return false;
}
