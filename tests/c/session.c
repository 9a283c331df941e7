/* SPDX-License-Identifier: MIT OR Apache-2.0 */
/*
 * Tests each call of tkcore_session.h: each code, what a fault leaves as it was, lines and rows,
 * words, records of one to three bytes and very long ones, and as many random records as the
 * argument says, at the edges of memory.
 */
#include "session.h"

#include "random.h"
#include "rooms.h"

#include <stdio.h>
#include <stdlib.h>

void carry_out(struct tkc_session *session, const struct given *given)
{
	uint64_t records = tkc_session_records(session);
	struct tkc_session before;
	struct tkc_text text;
	size_t length = strlen(given->text);
	uint32_t code;

	case_name = given->record;
	case_number = records;
	memcpy(&before, session, sizeof(before));
	memset(&text, STALE, sizeof(text));
	code = tkc_session_record(session, &text, given->record, given->length);
	check(code == given->code);
	check(text.length == length && !memcmp(text.bytes, given->text, length));
	for (size_t at = length; at < TKC_TEXT_ROOM; at++)
		check(text.bytes[at] == STALE);
	if (code || !given->length)
		check(!memcmp(session, &before, sizeof(before)));
	else
		check(tkc_session_records(session) == records + 1);
	case_name = NULL;
}

struct tkc_session carried_out(const struct given *records, size_t count)
{
	struct tkc_session session = tkc_session_begin();

	for (size_t i = 0; i < count; i++)
		carry_out(&session, &records[i]);
	return session;
}

int main(int argc, char **argv)
{
	if (argc != 2) {
		fprintf(stderr, "usage: session RECORDS\n");
		return EXIT_FAILURE;
	}
	make_rooms();
	try_faults();
	try_short_records();
	try_long_records();
	try_lines();
	try_rows();
	try_saved_sessions();
	try_any_records(strtoull(argv[1], NULL, 10));
	puts("session: each code, each kind of record, and random records");
	return EXIT_SUCCESS;
}
