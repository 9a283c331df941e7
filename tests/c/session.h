/* SPDX-License-Identifier: MIT OR Apache-2.0 */
/* What the files of session.c share. */
#ifndef SESSION_H
#define SESSION_H

#include "check.h"

#include <string.h>
#include <tkcore_session.h>

/* What memory contains before a call writes it. */
enum { STALE = 0x5a };

/* A record, the code that it must have, and its lines, or the text of its fault. */
struct given {
	const char *record;
	size_t length;
	uint32_t code;
	const char *text;
};

/* The first members of a row, from a text that may contain NULs. */
#define RECORD(text) text, sizeof(text) - 1

/* Carries out a record, whose code and text must be these. A fault, and an empty line, must leave
 * the session as it was, byte for byte. No byte after the text may be written. */
void carry_out(struct tkc_session *session, const struct given *given);

/* Carries out these records in a new session, and returns it. */
struct tkc_session carried_out(const struct given *records, size_t count);

/* Each code and each line, rows, saved words, and random records. */
void try_faults(void);
void try_short_records(void);
void try_long_records(void);
void try_lines(void);
void try_rows(void);
void try_saved_sessions(void);
void try_any_records(uint64_t count);

#endif
