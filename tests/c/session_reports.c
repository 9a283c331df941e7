/* SPDX-License-Identifier: MIT OR Apache-2.0 */
/*
 * Prints the reports of scripts, as crates/tk_session_reports does, for tests/model/session.py.
 * After each record, the calls of tkcore.h carry out the same row. Their clocks must then have the
 * words and the snapshot of the session, and the calls must refuse what its line refuses.
 */
#define _POSIX_C_SOURCE 200809L

#include "check.h"

#include <stdio.h>
#include <stdlib.h>
#include <string.h>
#include <tkcore_session.h>

/* A session, and its clocks as the calls of tkcore.h have left them. */
struct both {
	struct tkc_session session;
	bool is_steered, has_fault;
	struct tkc_clock clock;
	struct tkc_ntp ntp;
};

/* Loads the clocks that the first record has opened. */
static void load(struct both *both)
{
	uint64_t words[TKC_NTP_SAVED_WORDS];
	uint32_t count = tkc_session_save(words, &both->session);

	both->is_steered = count == TKC_NTP_SAVED_WORDS;
	if (both->is_steered)
		check(!tkc_ntp_load(&both->ntp, words));
	else
		check(count == TKC_SAVED_WORDS && !tkc_clock_load(&both->clock, words));
}

static void take_snapshot(struct tkc_snapshot *out, const struct both *both)
{
	if (both->is_steered)
		tkc_ntp_snapshot(out, &both->ntp);
	else
		tkc_clock_snapshot(out, &both->clock);
}

/* Reads a clock. The seconds of steered clocks begin first, unless the reading is refused. */
static uint32_t read_clock(struct both *both, const struct tkc_row *row)
{
	struct tkc_snapshot snapshot;
	struct tkc_time time;
	uint32_t code;

	if (both->is_steered) {
		code = tkc_ntp_advance(&both->ntp, row->reading);
		check(code <= TKC_RANGE);
	}
	take_snapshot(&snapshot, both);
	code = tkc_snapshot_get(&time, &snapshot, row->clock, row->reading);
	return code;
}

/* No discipline continues over another counter in a script. */
static uint32_t change_counter(struct both *both, const struct tkc_row *row)
{
	struct tkc_counter counter;

	check(!tkc_counter_new(&counter, row->bits, row->mult, row->shift));
	return both->is_steered ? TKC_INVALID : tkc_clock_change_counter(
			&both->clock, row->reading, &counter, row->first);
}

/* Carries out a row. Returns the code. */
static uint32_t carry_out_row(struct both *both, struct tkc_row *row)
{
	uint32_t state;

	switch (row->kind) {
	case TKC_ROW_READ:
		return read_clock(both, row);
	case TKC_ROW_COUNTER:
		return change_counter(both, row);
	case TKC_ROW_REQUEST:
		return both->is_steered ?
			       tkc_adjtimex(&row->timex, &state, &both->ntp, row->reading) :
			       TKC_INVALID;
	default:
		check(row->kind == TKC_ROW_COMMAND);
		return both->is_steered ? tkc_ntp_apply(&both->ntp, row->reading, row->command,
							row->number, row->nsec) :
					  tkc_clock_apply(&both->clock, row->reading, row->command,
							  row->number, row->nsec);
	}
}

/* The line of a refusal is its code's name in lower case. */
static void check_refusal(uint32_t code, const struct tkc_text *text)
{
	static const char *const words[] = { "", "full", "asleep", "awake", "invalid", "behind",
					     "range" };
	char line[16];
	size_t length;

	if (!code) {
		check(text->length > 3 && memcmp(text->bytes, "no,", 3) != 0);
		return;
	}
	check(code < COUNT_OF(words));
	length = (size_t)snprintf(line, sizeof(line), "no,%s\n", words[code]);
	check(text->length >= length && !memcmp(text->bytes, line, length));
}

/* The session's clocks are those that the calls left, and its words load them. */
static void check_same(const struct both *both)
{
	uint64_t words[TKC_NTP_SAVED_WORDS], others[TKC_NTP_SAVED_WORDS];
	uint32_t count = tkc_session_save(words, &both->session);
	struct tkc_snapshot snapshot, other;

	if (both->is_steered)
		tkc_ntp_save(others, &both->ntp);
	else
		tkc_clock_save(others, &both->clock);
	check(count == (both->is_steered ? TKC_NTP_SAVED_WORDS : TKC_SAVED_WORDS));
	check(!memcmp(words, others, count * sizeof(*words)));
	tkc_session_snapshot(&snapshot, &both->session);
	take_snapshot(&other, both);
	check(!memcmp(&snapshot, &other, sizeof(other)));
}

/* Carries out a record, and prints its lines or its fault. */
static void carry_out(struct both *both, const char *record, size_t length)
{
	uint64_t number = tkc_session_records(&both->session) + 1;
	struct tkc_text text;
	struct tkc_row row;
	uint32_t code = tkc_session_record(&both->session, &text, record, length);

	case_name = "record";
	case_number = number;
	check(text.length <= TKC_TEXT_ROOM);
	fwrite(text.bytes, 1, text.length, stdout);
	if (code) {
		putchar('\n');
		both->has_fault = true;
		check(number == 1 || tkc_row_parse(&row, number, record, length) == code);
		return;
	}
	if (number == 1) {
		load(both);
	} else {
		check(!tkc_row_parse(&row, number, record, length));
		check_refusal(carry_out_row(both, &row), &text);
	}
	check_same(both);
}

/* Ends the report of a script, and begins with the next one. */
static void end(struct both *both)
{
	if (!tkc_session_records(&both->session) && !both->has_fault)
		puts("no record");
	puts("=");
	both->session = tkc_session_begin();
	both->has_fault = false;
}

int main(void)
{
	static struct both both;
	char *line = NULL;
	size_t room = 0;
	ssize_t length;

	both.session = tkc_session_begin();
	while ((length = getline(&line, &room, stdin)) > 0) {
		length -= line[length - 1] == '\n';
		if (length == 1 && line[0] == '=')
			end(&both);
		else if (length && !both.has_fault)
			carry_out(&both, line, (size_t)length);
	}
	free(line);
	return EXIT_SUCCESS;
}
