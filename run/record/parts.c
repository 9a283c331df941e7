/* SPDX-License-Identifier: MIT OR Apache-2.0 */
/* parts.c - writes the rows of a record as scripts of tkcore. */
#define _GNU_SOURCE
#include "parts.h"

#include "replayed.h"
#include "texts.h"
#include "clocks/saved_words.h"
#include "script/script.h"

#include <errno.h>
#include <inttypes.h>
#include <limits.h>
#include <stdio.h>
#include <stdlib.h>

enum { LINE_MOST = 256 }; /* more bytes than a record has */

void recording_part(const struct recording *recording, unsigned int part,
		    char *name, size_t size)
{
	if (part == 1)
		snprintf(name, size, "%s", recording->path);
	else
		snprintf(name, size, "%s.%u", recording->path, part);
}

/* The script that is being written, and the clocks after its records. */
struct script_file {
	FILE *file;
	size_t bytes;
	struct replayed clocks;
};

/* A read that gave no time states no value: tkcore refuses it, too. */
static int put_read(FILE *file, const struct record_row *row)
{
	struct tkc_time value = { .sec = row->number, .nsec = row->nsec };

	return text_read(file, row->reading, row->kind - ROW_READ, row->code ? NULL : &value);
}

static int put_request(FILE *file, const struct record_row *row)
{
	struct asked_words asked;

	rows_asked(row, &asked);
	return text_request(file, row->reading, &asked);
}

static void close_script(struct script_file *script, int *error)
{
	if (!script->file || ferror(script->file))
		*error = errno ? errno : EIO;
	if (script->file && fclose(script->file))
		*error = errno;
}

/* Opens the clocks of the first part, if they have no uptime. */
static void put_opening(struct script_file *script, const struct plan *plan)
{
	uint32_t bits, mult, shift;

	tkc_counter_numbers(&bits, &mult, &shift, &plan->counter);
	script->bytes += (size_t)fprintf(
		script->file,
		"open,%" PRIu32 ",%" PRIu32 ",%" PRIu32 ",%" PRIu64 ",%" PRId64
		",%" PRIu32,
		bits, mult, shift, plan->first, plan->open_sec,
		plan->open_nsec);
	if (script->clocks.is_steered)
		script->bytes += (size_t)fprintf(script->file, ",%" PRIu32,
						 plan->ticks);
}

static void put_words(struct script_file *script, const uint64_t *words,
		      int first, int end)
{
	for (int i = first; i < end; i++)
		script->bytes += (size_t)fprintf(
			script->file, is_signed_word(i) ? ",%" PRId64 : ",%" PRIu64,
			words[i]);
}

/* Opens the clocks as they are now: after the former part, or with an uptime. The
 * counter comes before their words. */
static void put_clocks(struct script_file *script)
{
	uint64_t words[TKC_NTP_SAVED_WORDS];

	replayed_words(&script->clocks, words);
	script->bytes += (size_t)fprintf(script->file, "openwords");
	put_words(script, words, TKC_WORDS, TKC_WORDS + 3);
	put_words(script, words, 0, TKC_WORDS);
	put_words(script, words, TKC_WORDS + 3,
		  script->clocks.is_steered ? TKC_NTP_SAVED_WORDS
					    : TKC_SAVED_WORDS);
}

/* Adds a part that begins at a row. Returns NULL if memory is missing. */
static struct part *add_part(struct recording *recording, uint64_t row)
{
	unsigned int count = recording->part_count + 1;
	struct part *parts = reallocarray(recording->parts, count,
					  sizeof(*parts));

	if (!parts)
		return NULL;
	recording->parts = parts;
	recording->part_count = count;
	parts[count - 1] = (struct part){ row, row };
	return &parts[count - 1];
}

/* Begins the next part at a row. Returns NULL if the script can't be made. */
static struct part *begin_part(struct recording *recording,
			       const struct plan *plan, uint64_t row,
			       struct script_file *script)
{
	struct part *part = add_part(recording, row);
	char name[PATH_MAX];

	script->file = NULL;
	script->bytes = 0;
	if (!part)
		return NULL;
	recording_part(recording, recording->part_count, name, sizeof(name));
	script->file = fopen(name, "we");
	if (!script->file)
		return NULL;
	if (recording->part_count > 1 || plan->uptime_sec || plan->uptime_nsec)
		put_clocks(script);
	else
		put_opening(script, plan);
	script->bytes += (size_t)fprintf(script->file, "\n");
	return part;
}

static void put_row(struct recording *recording, struct script_file *script,
		    const struct record_row *row)
{
	FILE *file = script->file;
	int bytes;

	if (is_request(row))
		bytes = put_request(file, row);
	else if (is_command(row))
		bytes = text_command(file, row->reading, row->kind, row->number, row->nsec);
	else
		bytes = put_read(file, row);
	script->bytes += (size_t)bytes + (size_t)fprintf(file, "\n");
	recording->commands += is_request(row) || is_command(row);
	recording->reads += !is_request(row) && !is_command(row);
	replayed_follow(&script->clocks, row);
}

/* The most bytes of a part. Tests make it smaller. */
static size_t part_size(void)
{
	const char *text = getenv("TKRUN_PART_BYTES");

	return text ? strtoull(text, NULL, 10) : SCRIPT_LIMIT;
}

int parts_write(struct recording *recording, const struct plan *plan)
{
	const struct list *list = &recording->list;
	const size_t part_most = part_size();
	struct script_file script = { 0 };
	struct part *part;
	int error = 0;

	replayed_open(&script.clocks, plan, recording->is_steered);
	part = begin_part(recording, plan, 0, &script);

	for (uint64_t i = 0; i < list->count && part; i++) {
		if (script.bytes > part_most - LINE_MOST) {
			close_script(&script, &error);
			part = begin_part(recording, plan, i, &script);
			if (!part)
				break;
		}
		put_row(recording, &script, list->rows[i]);
		part->end = i + 1;
	}
	close_script(&script, &error);
	return error;
}
