/* SPDX-License-Identifier: MIT OR Apache-2.0 */
/*
 * check.c - replays a record by tkcore. The scripts state the values that the program read, and
 * tkcore names those that differ. That commands and reads were accepted, or refused, is compared
 * here.
 */
#define _GNU_SOURCE
#include "recording.h"
#include "texts.h"
#include "tkrun/signals.h"

#include <inttypes.h>
#include <limits.h>
#include <stdio.h>
#include <string.h>
#include <sys/wait.h>

enum { SHOWN_MOST = 5, LINE_MOST = 256 };

/* The report of a part, while its lines are compared. */
struct report {
	const struct recording *recording;
	const struct part *part;
	const char *name;
	char line[LINE_MOST]; /* of the record `record`, which counts from 1 */
	uint64_t record, differ, *shown;
	bool is_other; /* the line has a value that the program didn't get */
};

static uint64_t record_count(const struct part *part)
{
	return 1 + part->end - part->first;
}

/* Returns the row of the record, or NULL if it is the opening. */
static const struct record_row *row_of(const struct report *report)
{
	if (report->record <= 1)
		return NULL;
	return report->recording->list
		.rows[report->part->first + report->record - 2];
}

/* Stores the line of a request's reply, without the number at its end. */
static void expect_reply(const struct record_row *row, char *text, size_t size)
{
	static const char *const STATES[] = { "ok",  "ins",  "del",
					      "oop", "wait", "error" };
	struct asked_words asked;

	rows_asked(row, &asked);
	snprintf(text, size,
		 "adj,%s,%" PRId64 ".%0*" PRId64 ",%" PRId64 ",%" PRId64
		 ",%" PRId64 ",%" PRId64 ",%" PRId64 ",%" PRId64 ",%" PRId64
		 ",%" PRId64 ",",
		 asked.reply.state <= TIME_ERROR && asked.reply.state >= 0
			 ? STATES[asked.reply.state]
			 : "?",
		 asked.reply.sec, asked.reply.status & STA_NANO ? 9 : 6,
		 asked.reply.sub, asked.reply.offset, asked.reply.freq,
		 asked.reply.maxerror, asked.reply.esterror,
		 asked.reply.status, asked.reply.constant, asked.reply.tick,
		 asked.reply.tai);
}

/* Returns whether a row is a read that got a time. */
static bool is_read(const struct record_row *row)
{
	return row && !row->code && !is_request(row) && !is_command(row);
}

/* Returns whether the line of a read has its clock and its value. A date may follow. */
static bool has_value(const struct record_row *row, const char *line)
{
	char value[LINE_MOST];
	int length = snprintf(value, sizeof(value), "at,%s,%" PRId64 ".%09" PRIu32,
			      text_clock(row->kind - ROW_READ),
			      row->number, row->nsec);

	return !strncmp(line, value, (size_t)length) &&
	       (line[length] == ',' || line[length] == '\n');
}

/* Stores how the record's line begins if tkcore did the same. */
static void expect(const struct report *report, char *text, size_t size)
{
	const struct record_row *row = row_of(report);

	if (row && row->code)
		snprintf(text, size, "no,%s\n", text_refusal(row->code));
	else if (row && is_request(row))
		expect_reply(row, text, size);
	else if (is_read(row))
		snprintf(text, size, "at,");
	else
		snprintf(text, size, row ? "ok," : "open,");
}

static void count_difference(struct report *report, const char *saw)
{
	report->differ++;
	if ((*report->shown)++ < SHOWN_MOST)
		fprintf(stderr,
			"tkrun: %s, record %" PRIu64
			": the program saw '%.*s', and tkcore gives '%.*s'\n",
			report->name, report->record, (int)strcspn(saw, "\n"),
			saw, (int)strcspn(report->line, "\n"), report->line);
}

/* Compares the line of the next record. */
static void compare_line(struct report *report, const char *line)
{
	char expected[LINE_MOST] = "nothing";

	strcpy(report->line, line);
	report->record++;
	if (report->record <= record_count(report->part))
		expect(report, expected, sizeof(expected));
	if (strncmp(line, expected, strlen(expected)))
		count_difference(report, expected);
	else if (is_read(row_of(report)))
		report->is_other = !has_value(row_of(report), line);
}

/* Counts a line of a read with another value, or a line `differs` after it. */
static void count_value(struct report *report)
{
	const struct record_row *row = row_of(report);
	char value[LINE_MOST] = "nothing";

	report->is_other = false;
	if (row)
		snprintf(value, sizeof(value), "%" PRId64 ".%09" PRIu32,
			 row->number, row->nsec);
	count_difference(report, value);
}

/* Compares the lines of a report with the rows of its part. */
static void compare(struct report *report, FILE *lines)
{
	char line[LINE_MOST];

	while (report->record <= record_count(report->part) &&
	       fgets(line, sizeof(line), lines)) {
		bool is_differs = !strncmp(line, "differs,", 8);

		if (is_differs || report->is_other)
			count_value(report);
		if (!is_differs)
			compare_line(report, line);
	}
	if (report->is_other)
		count_value(report);
}

/* Returns whether tkcore could be run: env(1) has these statuses, too. */
static bool has_run(int status)
{
	return WIFEXITED(status) && WEXITSTATUS(status) < STATUS_FAILED;
}

/* Compares the end of a report, unless a signal has ended it. Returns the differences
 * of the part, or NOT_RUN. */
static uint64_t end_part(struct report *report, int status)
{
	if (signals_passed())
		return report->differ;
	if (!has_run(status)) {
		fprintf(stderr, "tkrun: --check: tkcore can't be run on %s\n",
			report->name);
		return NOT_RUN;
	}
	if (report->record < record_count(report->part))
		compare_line(report, "nothing");
	if (WEXITSTATUS(status) && WEXITSTATUS(status) != STATUS_DIFFERS)
		fprintf(stderr, "tkrun: --check: tkcore refuses %s\n",
			report->name);
	return report->differ;
}

static uint64_t check_part(const struct recording *recording, unsigned int part,
			   uint64_t *shown)
{
	char script[PATH_MAX];
	struct report report = { .recording = recording,
				 .part = &recording->parts[part - 1],
				 .name = script,
				 .shown = shown };
	int status = W_EXITCODE(STATUS_NOT_FOUND, 0);
	pid_t child = -1;
	siginfo_t end;
	FILE *lines;

	recording_part(recording, part, script, sizeof(script));
	lines = tkcore_replay(script, &child);
	if (lines) {
		compare(&report, lines);
		fclose(lines);
	}
	if (child > 0) {
		/* it keeps its number until no signal is passed on to it */
		waitid(P_PID, (id_t)child, &end, WEXITED | WNOWAIT);
		signals_pass_no_more();
		waitpid(child, &status, 0);
	}
	return end_part(&report, status);
}

uint64_t recording_check(const struct recording *recording)
{
	uint64_t differ = 0, shown = 0, more;

	for (unsigned int part = 1; part <= recording->part_count; part++) {
		more = check_part(recording, part, &shown);
		if (more == NOT_RUN)
			return differ ? differ : NOT_RUN;
		differ += more;
		if (signals_passed())
			break;
	}
	return differ;
}
