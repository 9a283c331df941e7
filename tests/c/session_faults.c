/* SPDX-License-Identifier: MIT OR Apache-2.0 */
/* Records with faults, and those of one to three bytes. */
#include "session.h"

#define OPENING "open,32,16777216,24,0,1700000000,0"

static const char no_opening[] = "record 1: not a valid opening";
static const char not_plain[] = "not a plain line";

static const struct given openings[] = {
	{ RECORD(""), TKC_OK, "" },
	{ RECORD("a\"b"), TKC_NOT_PLAIN, not_plain },
	{ RECORD("\xef\xbb\xbf" OPENING), TKC_NOT_PLAIN, not_plain },
	{ RECORD("\xef"), TKC_NOT_PLAIN, not_plain },
	{ RECORD(OPENING "\r"), TKC_NOT_PLAIN, not_plain },
	{ RECORD(OPENING "\n"), TKC_NOT_PLAIN, not_plain },
	{ RECORD("update,0"), TKC_BAD_OPENING, no_opening },
	{ RECORD("open\0,32,16777216,24,0,0,0"), TKC_BAD_OPENING, no_opening },
	{ RECORD(" " OPENING), TKC_BAD_OPENING, no_opening },
	{ RECORD("open"), TKC_BAD_FIELDS, "record 1: wrong number of fields" },
	{ RECORD("open,x,16777216,24,0,0,0,0,0"), TKC_BAD_FIELDS,
	  "record 1: wrong number of fields" },
	{ RECORD("openwords,32,16777216,24,0,0,0"), TKC_BAD_FIELDS,
	  "record 1: wrong number of fields" },
	{ RECORD("open,7,16777216,24,x,0,0"), TKC_BAD_NUMBER, "record 1: not a number in range" },
	{ RECORD("open,32\0,16777216,24,0,0,0"), TKC_BAD_NUMBER,
	  "record 1: not a number in range" },
	{ RECORD("open,32,16777216,24,0,0,4294967296"), TKC_BAD_NUMBER,
	  "record 1: not a number in range" },
	{ RECORD("open,7,16777216,24,0,0,0"), TKC_BAD_OPENING, no_opening },
	{ RECORD("open,32,16777216,24,4294967296,0,0"), TKC_BAD_OPENING, no_opening },
	{ RECORD("open,32,16777216,24,0,0,1000000000"), TKC_BAD_OPENING, no_opening },
	{ RECORD("open,32,16777216,24,0,0,0,1025"), TKC_BAD_OPENING, no_opening },
	{ RECORD("openhz,32,0,600,0,0,0"), TKC_BAD_OPENING, no_opening },
	/* a fault leaves the session without clocks, so the next record opens them */
	{ RECORD(OPENING), TKC_OK, "open,32,16777216,24\n" },
};

static const struct given later[] = {
	{ RECORD(""), TKC_OK, "" },
	{ RECORD("update,\"1\""), TKC_NOT_PLAIN, not_plain },
	{ RECORD("update,1\r"), TKC_NOT_PLAIN, not_plain },
	{ RECORD("update,1\n"), TKC_NOT_PLAIN, not_plain },
	{ RECORD(OPENING), TKC_BAD_WORD, "record 2: unknown word" },
	{ RECORD("\xef\xbb\xbfupdate,1"), TKC_BAD_WORD, "record 2: unknown word" },
	{ RECORD("Update,1"), TKC_BAD_WORD, "record 2: unknown word" },
	{ RECORD("update\0,1"), TKC_BAD_WORD, "record 2: unknown word" },
	{ RECORD("\0"), TKC_BAD_WORD, "record 2: unknown word" },
	{ RECORD("get,0,Realtime"), TKC_BAD_WORD, "record 2: unknown word" },
	{ RECORD("get,0,tai,"), TKC_BAD_NUMBER, "record 2: not a number in range" },
	{ RECORD("get,x,y"), TKC_BAD_NUMBER, "record 2: not a number in range" },
	{ RECORD("get,0,y,x"), TKC_BAD_WORD, "record 2: unknown word" },
	{ RECORD("get,0,tai,18446744073709551616"), TKC_BAD_NUMBER,
	  "record 2: not a number in range" },
	{ RECORD("update"), TKC_BAD_FIELDS, "record 2: wrong number of fields" },
	{ RECORD("update,1,"), TKC_BAD_FIELDS, "record 2: wrong number of fields" },
	{ RECORD("get,x"), TKC_BAD_FIELDS, "record 2: wrong number of fields" },
	{ RECORD("set,0,0"), TKC_BAD_FIELDS, "record 2: wrong number of fields" },
	{ RECORD("step,0,0"), TKC_BAD_FIELDS, "record 2: wrong number of fields" },
	{ RECORD("freq,0"), TKC_BAD_FIELDS, "record 2: wrong number of fields" },
	{ RECORD("tick,0,0,0"), TKC_BAD_FIELDS, "record 2: wrong number of fields" },
	{ RECORD("tai,0"), TKC_BAD_FIELDS, "record 2: wrong number of fields" },
	{ RECORD("suspend,0,0"), TKC_BAD_FIELDS, "record 2: wrong number of fields" },
	{ RECORD("resume,0"), TKC_BAD_FIELDS, "record 2: wrong number of fields" },
	{ RECORD("counter,0,7,16777216,24"), TKC_BAD_FIELDS, "record 2: wrong number of fields" },
	{ RECORD("adjtimex,0,0,0,0,0,0,0,0,0,0"), TKC_BAD_FIELDS,
	  "record 2: wrong number of fields" },
	{ RECORD("update,"), TKC_BAD_NUMBER, "record 2: not a number in range" },
	{ RECORD("update,18446744073709551616"), TKC_BAD_NUMBER,
	  "record 2: not a number in range" },
	{ RECORD("update,1\0"), TKC_BAD_NUMBER, "record 2: not a number in range" },
	{ RECORD("update,-0"), TKC_BAD_NUMBER, "record 2: not a number in range" },
	{ RECORD("update,+1"), TKC_BAD_NUMBER, "record 2: not a number in range" },
	{ RECORD("update, 1"), TKC_BAD_NUMBER, "record 2: not a number in range" },
	{ RECORD("freq,0,9223372036854775808"), TKC_BAD_NUMBER,
	  "record 2: not a number in range" },
	{ RECORD("freq,0,-9223372036854775809"), TKC_BAD_NUMBER,
	  "record 2: not a number in range" },
	{ RECORD("freq,0,--1"), TKC_BAD_NUMBER, "record 2: not a number in range" },
	{ RECORD("freq,0,-"), TKC_BAD_NUMBER, "record 2: not a number in range" },
	{ RECORD("set,0,0,-1"), TKC_BAD_NUMBER, "record 2: not a number in range" },
	{ RECORD("adjtimex,0,4294967296,0,0,0,0,0,0,0,0,0"), TKC_BAD_NUMBER,
	  "record 2: not a number in range" },
	{ RECORD("counter,0,7,255,33,x"), TKC_BAD_NUMBER, "record 2: not a number in range" },
	{ RECORD("counter,0,7,255,33,0"), TKC_BAD_BITS,
	  "record 2: a reading does not have 8 to 64 bits" },
	{ RECORD("counter,0,65,256,32,0"), TKC_BAD_BITS,
	  "record 2: a reading does not have 8 to 64 bits" },
	{ RECORD("counter,0,64,255,33,0"), TKC_BAD_SHIFT, "record 2: the shift is above 32" },
	{ RECORD("counter,0,64,255,32,0"), TKC_BAD_MULT, "record 2: the mult is below 256" },
	{ RECORD("counter,0,64,3869339907,32,0"), TKC_BAD_ADJUST,
	  "record 2: the mult and 11 percent of it do not fit 32 bits" },
	{ RECORD("update,1"), TKC_OK, "ok,1,0.000000001\n" },
	{ RECORD("updates,1"), TKC_BAD_WORD, "record 3: unknown word" },
};

/* The row of a later record that has this code must have it too, and stay as it was. */
static void try_row(const struct given *given)
{
	struct tkc_row row, before;

	memset(&row, STALE, sizeof(row));
	before = row;
	case_name = given->record;
	check(tkc_row_parse(&row, 2, given->record, given->length) ==
	      (given->length ? given->code : TKC_BAD_WORD));
	check(!memcmp(&row, &before, sizeof(row)) == (given->code || !given->length));
	case_name = NULL;
}

/* A session that has counted 2^64 - 1 records: word 30 is their number. */
static void try_full_count(struct tkc_session session)
{
	static const struct given full[] = {
		{ RECORD(""), TKC_OK, "" },
		{ RECORD("\""), TKC_NOT_PLAIN, not_plain },
		{ RECORD("update,2"), TKC_TOO_MANY, "too many records" },
		{ RECORD("no word"), TKC_TOO_MANY, "too many records" },
	};

	check(session.tkc_private[30] == tkc_session_records(&session));
	session.tkc_private[30] = UINT64_MAX - 1;
	carry_out(&session, &(struct given){ RECORD("set,0"), TKC_BAD_FIELDS,
		"record 18446744073709551615: wrong number of fields" });
	carry_out(&session, &(struct given){ RECORD("get,1,tai,1"), TKC_OK,
		"at,tai,1700000000.000000001\ndiffers,18446744073709551615,1\n" });
	for (size_t i = 0; i < COUNT_OF(full); i++)
		carry_out(&session, &full[i]);
}

void try_faults(void)
{
	struct tkc_session session = carried_out(openings, COUNT_OF(openings));

	check(tkc_session_records(&session) == 1);
	for (size_t i = 0; i < COUNT_OF(later); i++) {
		carry_out(&session, &later[i]);
		try_row(&later[i]);
	}
	check(tkc_session_records(&session) == 2 && !tkc_session_differences(&session));
	try_full_count(session);
}

/* Carries out a short record as the first one, and as a later one. Only these keywords have at
 * most three bytes. */
static void try_short(struct tkc_session *opened, const char *record, size_t length)
{
	bool is_word = length == 3 && (!memcmp(record, "set", 3) || !memcmp(record, "get", 3) ||
				       !memcmp(record, "tai", 3));
	struct given given = { record, length, TKC_NOT_PLAIN, not_plain };
	struct tkc_session session = tkc_session_begin();
	bool is_plain = true;

	for (size_t at = 0; at < length; at++)
		is_plain = is_plain && !strchr("\"\r\n", record[at] ? record[at] : ' ');
	if (is_plain && record[0] != '\xef') {
		given.code = TKC_BAD_OPENING;
		given.text = no_opening;
	}
	carry_out(&session, &given);
	if (is_plain) {
		given.code = is_word ? TKC_BAD_FIELDS : TKC_BAD_WORD;
		given.text = is_word ? "record 2: wrong number of fields" :
				       "record 2: unknown word";
	}
	carry_out(opened, &given);
	try_row(&given);
}

void try_short_records(void)
{
	static const struct given opening[] = { { RECORD(OPENING), TKC_OK,
						  "open,32,16777216,24\n" } };
	static const char some[] = "\0\n\r\"\x7f\x80\xef\xff,-0gestai";
	struct tkc_session opened = carried_out(opening, 1);

	for (uint32_t first = 0; first < 256; first++) {
		try_short(&opened, (const char[]){ (char)first }, 1);
		for (uint32_t next = 0; next < 256; next++)
			try_short(&opened, (const char[]){ (char)first, (char)next }, 2);
	}
	for (size_t a = 0; a < sizeof(some); a++)
		for (size_t b = 0; b < sizeof(some); b++)
			for (size_t c = 0; c < sizeof(some); c++)
				try_short(&opened, (const char[]){ some[a], some[b], some[c] }, 3);
	check(tkc_session_records(&opened) == 1);
}
