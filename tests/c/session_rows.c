/* SPDX-License-Identifier: MIT OR Apache-2.0 */
/* Records as rows, and records of any length. */
#include "session.h"

#include <stdio.h>
#include <stdlib.h>

struct parsed {
	const char *record;
	size_t length;
	struct tkc_row row;
};

/* The members of a command, a read, a change and a request, after the record. */
#define COMMAND(cmd, ...) .row = { .kind = TKC_ROW_COMMAND, .command = cmd, __VA_ARGS__ }
#define READ(id, ...) .row = { .kind = TKC_ROW_READ, .clock = id, __VA_ARGS__ }
#define COUNTER(...) .row = { .kind = TKC_ROW_COUNTER, __VA_ARGS__ }
#define REQUEST(at, ...) .row = { .kind = TKC_ROW_REQUEST, .reading = at, .timex = { __VA_ARGS__ } }

static const struct parsed rows[] = {
	{ RECORD("update,10"), COMMAND(TKC_CMD_UPDATE, .reading = 10) },
	{ RECORD("update,18446744073709551615"), COMMAND(TKC_CMD_UPDATE, .reading = UINT64_MAX) },
	{ RECORD("update,00000000000000000000000010"), COMMAND(TKC_CMD_UPDATE, .reading = 10) },
	{ RECORD("set,20,1800000000,5"),
	  COMMAND(TKC_CMD_SET_TIME, .reading = 20, .number = 1800000000, .nsec = 5) },
	{ RECORD("set,0,-9223372036854775808,4294967295"),
	  COMMAND(TKC_CMD_SET_TIME, .number = INT64_MIN, .nsec = UINT32_MAX) },
	{ RECORD("step,30,-1,999999999"),
	  COMMAND(TKC_CMD_STEP, .reading = 30, .number = -1, .nsec = 999999999) },
	{ RECORD("freq,50,-32768000"), COMMAND(TKC_CMD_FREQ, .reading = 50, .number = -32768000) },
	{ RECORD("freq,0,-0"), COMMAND(TKC_CMD_FREQ, .number = 0) },
	{ RECORD("tick,60,9223372036854775807"),
	  COMMAND(TKC_CMD_TICK, .reading = 60, .number = INT64_MAX) },
	{ RECORD("tai,40,37"), COMMAND(TKC_CMD_TAI_OFFSET, .reading = 40, .number = 37) },
	{ RECORD("suspend,70"), COMMAND(TKC_CMD_SUSPEND, .reading = 70) },
	{ RECORD("resume,90,3600,1"),
	  COMMAND(TKC_CMD_RESUME, .reading = 90, .number = 3600, .nsec = 1) },
	{ RECORD("get,1,realtime"), READ(TKC_CLOCK_REALTIME, .reading = 1) },
	{ RECORD("get,2,monotonic"), READ(TKC_CLOCK_MONOTONIC, .reading = 2) },
	{ RECORD("get,3,monotonic_raw"), READ(TKC_CLOCK_MONOTONIC_RAW, .reading = 3) },
	{ RECORD("get,4,realtime_coarse"), READ(TKC_CLOCK_REALTIME_COARSE, .reading = 4) },
	{ RECORD("get,5,monotonic_coarse"), READ(TKC_CLOCK_MONOTONIC_COARSE, .reading = 5) },
	{ RECORD("get,6,boottime"), READ(TKC_CLOCK_BOOTTIME, .reading = 6) },
	{ RECORD("get,7,tai"), READ(TKC_CLOCK_TAI, .reading = 7) },
	{ RECORD("get,7,tai,0"), READ(TKC_CLOCK_TAI, .reading = 7, .has_value = 1) },
	{ RECORD("get,8,realtime,18446744073709551615"),
	  READ(TKC_CLOCK_REALTIME, .reading = 8, .has_value = 1, .value = UINT64_MAX) },
	{ RECORD("counter,100,56,33554432,24,5"),
	  COUNTER(.reading = 100, .bits = 56, .mult = 33554432, .shift = 24, .first = 5) },
	{ RECORD("counter,0,8,3869339906,32,18446744073709551615"),
	  COUNTER(.bits = 8, .mult = 3869339906, .shift = 32, .first = UINT64_MAX) },
	{ RECORD("adjtimex,1,2,3,4,5,6,7,8,9,10,11"),
	  REQUEST(1, .modes = 2, .offset = 3, .freq = 4, .maxerror = 5, .esterror = 6, .status = 7,
		  .constant = 8, .tick = 9, .sec = 10, .sub = 11) },
	{ RECORD("adjtimex,0,4294967295,-1,-2,-3,-4,4294967294,-5,-6,-7,-9223372036854775808"),
	  REQUEST(0, .modes = UINT32_MAX, .offset = -1, .freq = -2, .maxerror = -3, .esterror = -4,
		  .status = UINT32_MAX - 1, .constant = -5, .tick = -6, .sec = -7,
		  .sub = INT64_MIN) },
};

/* The record's number has no effect on the row. All bytes of the row are written. */
static void try_parsed(const struct parsed *parsed)
{
	static const uint64_t numbers[] = { 2, 0, UINT64_MAX };

	case_name = parsed->record;
	for (size_t i = 0; i < COUNT_OF(numbers); i++) {
		struct tkc_row row;

		case_number = numbers[i];
		memset(&row, i ? STALE : 0xff, sizeof(row));
		check(!tkc_row_parse(&row, numbers[i], parsed->record, parsed->length));
		check(!memcmp(&row, &parsed->row, sizeof(row)));
	}
	case_name = NULL;
}

void try_rows(void)
{
	for (size_t i = 0; i < COUNT_OF(rows); i++)
		try_parsed(&rows[i]);
}

enum { LONG = 1 << 24 };

/* Carries out a record of LONG bytes: `head`, then this byte, and `tail`. */
static void try_long(struct tkc_session *session, const char *head, char fill, const char *tail,
		     uint32_t code, const char *text)
{
	struct given given = { NULL, LONG, code, text };
	char *record = malloc(LONG);

	if (!record) {
		perror("session: memory");
		exit(EXIT_FAILURE);
	}
	memset(record, fill, LONG);
	memcpy(record, head, strlen(head));
	memcpy(record + LONG - strlen(tail), tail, strlen(tail));
	given.record = record;
	carry_out(session, &given);
	free(record);
}

void try_long_records(void)
{
	struct tkc_session session = tkc_session_begin();

	try_long(&session, "", '\0', "", TKC_BAD_OPENING, "record 1: not a valid opening");
	try_long(&session, "open", ',', "", TKC_BAD_FIELDS, "record 1: wrong number of fields");
	try_long(&session, "open,32,16777216,24,0,0,", '0', "7", TKC_OK, "open,32,16777216,24\n");
	try_long(&session, "update,", '0', "1000000007", TKC_OK, "ok,1,1.000000007\n");
	try_long(&session, "update,", '0', "\"", TKC_NOT_PLAIN, "not a plain line");
	try_long(&session, "get,8,", 't', "", TKC_BAD_WORD, "record 3: unknown word");
	try_long(&session, "adjtimex", ',', "", TKC_BAD_FIELDS, "record 3: wrong number of fields");
	try_long(&session, "update,", '9', "", TKC_BAD_NUMBER, "record 3: not a number in range");
	check(tkc_session_records(&session) == 2);
}
