/* SPDX-License-Identifier: MIT OR Apache-2.0 */
/* readers.c - writes who made each read of a script, and checks that this fits the script. */
#define _GNU_SOURCE
#include "readers.h"

#include <errno.h>
#include <inttypes.h>
#include <limits.h>
#include <stdio.h>
#include <stdlib.h>
#include <string.h>

enum { SHOWN_MOST = 5, LINE_MOST = 256 };

static const char *const CALLS[READ_CALLS] = {
	[BY_CLOCK_GETTIME] = "clock_gettime",
	[BY_GETTIMEOFDAY] = "gettimeofday",
	[BY_TIME] = "time",
	[BY_TIMESPEC_GET] = "timespec_get",
	[BY_FTIME] = "ftime",
	[BY_WAIT] = "wait",
	[BY_STAMP] = "stamp",
};

/* Opens the file next to a script. Returns NULL and sets errno if it can't. */
static FILE *open_part(const struct recording *recording, unsigned int part,
		       const char *mode)
{
	char script[PATH_MAX], *name = NULL;
	FILE *file;

	recording_part(recording, part, script, sizeof(script));
	if (asprintf(&name, "%s.readers", script) < 0)
		return NULL;
	file = fopen(name, mode);
	free(name);
	return file;
}

void readers_start(const struct recording *recording)
{
	FILE *file = open_part(recording, 1, "we");

	if (!file)
		fail(STATUS_WRONG, "--readers: cannot write '%s.readers': %s",
		     recording->path, strerror(errno));
	fclose(file);
}

/* Returns whether a byte of a program's name stands for itself. */
static bool is_plain(char byte)
{
	return byte >= ' ' && byte <= '~' && !strchr(",\"\\", byte);
}

static void put_name(FILE *file, const char *name)
{
	for (int i = 0; i < NAME_BYTES && name[i]; i++) {
		if (is_plain(name[i]))
			fputc(name[i], file);
		else
			fprintf(file, "\\x%02x", (unsigned char)name[i]);
	}
	fputc('\n', file);
}

/* The programs' processes can write to the rows, so a call may be any number. */
static void put_line(FILE *file, uint64_t record, const struct record_row *row)
{
	const struct reader_row *by = rows_reader(row);

	fprintf(file, "%" PRIu64 ",%" PRIu64 ",%" PRId32 ",%" PRId32 ",%s,",
		record, row->reading, by->reader.process, by->reader.thread,
		by->call < READ_CALLS ? CALLS[by->call] : "?");
	put_name(file, by->reader.program);
}

/* The first record of a script is its opening, and a record for each row follows. */
static int write_part(const struct recording *recording, unsigned int part)
{
	const struct part *rows = &recording->parts[part - 1];
	FILE *file = open_part(recording, part, "we");
	int error = 0;

	if (!file)
		return errno;
	for (uint64_t i = rows->first; i < rows->end; i++) {
		if (recording->list.rows[i]->kind >= ROW_READ)
			put_line(file, i - rows->first + 2,
				 recording->list.rows[i]);
	}
	if (ferror(file))
		error = errno ? errno : EIO;
	if (fclose(file))
		error = errno;
	return error;
}

int readers_write(const struct recording *recording)
{
	int error = 0;

	for (unsigned int i = 1; i <= recording->part_count && !error; i++)
		error = write_part(recording, i);
	return error;
}

/* Returns whether a text is "PROCESS,THREAD,CALL,PROGRAM". */
static bool is_reader(const char *text)
{
	char call[LINE_MOST], program[LINE_MOST];
	int process, thread, end = -1;

	sscanf(text, "%d,%d,%255[a-z_],%255[^,\n]\n%n", &process, &thread, call,
	       program, &end);
	if (end < 0 || text[end] || process < 1 || thread < 1)
		return false;
	for (int i = 0; i < READ_CALLS; i++) {
		if (!strcmp(call, CALLS[i]))
			return true;
	}
	return false;
}

/* Returns whether a line is that of a read: of this record, and of its reading. */
static bool is_line_of(const char *line, uint64_t record, const char *script)
{
	char start[LINE_MOST];
	int length = snprintf(start, sizeof(start), "%" PRIu64 ",%" PRIu64 ",",
			      record, (uint64_t)strtoull(script + 4, NULL, 10));

	return !strncmp(line, start, (size_t)length) && is_reader(line + length);
}

static void show(const struct recording *recording, unsigned int part,
		 uint64_t record, const char *line)
{
	char script[PATH_MAX];

	recording_part(recording, part, script, sizeof(script));
	fprintf(stderr,
		"tkrun: %s.readers, record %" PRIu64 ": '%.*s' isn't who read there\n",
		script, record, (int)strcspn(line, "\n"), line);
}

/* A line that is missing is an empty one. Of the lines after the last read's, one is wrong enough. */
static uint64_t check_lines(const struct recording *recording, unsigned int part,
			    FILE *script, FILE *readers)
{
	char record[LINE_MOST], line[LINE_MOST];
	uint64_t number = 0, wrong = 0;

	while (fgets(record, sizeof(record), script)) {
		number++;
		if (strncmp(record, "get,", 4))
			continue;
		if (!readers || !fgets(line, sizeof(line), readers))
			*line = 0;
		if (!is_line_of(line, number, record) && wrong++ < SHOWN_MOST)
			show(recording, part, number, line);
	}
	if (readers && fgets(line, sizeof(line), readers) && wrong++ < SHOWN_MOST)
		show(recording, part, number + 1, line);
	return wrong;
}

uint64_t readers_check(const struct recording *recording)
{
	uint64_t wrong = 0;

	for (unsigned int part = 1; part <= recording->part_count; part++) {
		FILE *readers = open_part(recording, part, "re");
		char name[PATH_MAX];
		FILE *script;

		recording_part(recording, part, name, sizeof(name));
		script = fopen(name, "re");
		if (script)
			wrong += check_lines(recording, part, script, readers);
		if (script)
			fclose(script);
		if (readers)
			fclose(readers);
	}
	return wrong;
}
