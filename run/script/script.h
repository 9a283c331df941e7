/* SPDX-License-Identifier: MIT OR Apache-2.0 */
/* script.h - reads scripts of tkcore, whose records the library parses. docs/TKCORE.md describes
 * them. A script with a quote or a change of counter is refused. */
#ifndef SCRIPT_H
#define SCRIPT_H

#include "clocks/machine.h"

#include <tkcore_session.h>

/* The greatest size of a script, in bytes. */
enum { SCRIPT_LIMIT = 16777216 };

/* The commands and the requests of a script, and its reads unless they are left out. The order of
 * a request has the command ROW_REQUEST and the request's number in the list. That of a read has
 * ROW_READ plus the clock, and the value that the read states. */
struct script {
	bool keeps_reads;
	/* The clocks as the first record opens them, as tkc_session_save stores them. There are
	 * TKC_NTP_SAVED_WORDS if a discipline steers the clocks, and else TKC_SAVED_WORDS. */
	uint64_t words[TKC_NTP_SAVED_WORDS];
	uint32_t word_count;
	struct order *orders;
	size_t count;
	struct timex *requests;
	size_t request_count;
};

/* Why a script is refused. Record 0 means the script as a whole. */
struct fault {
	size_t record;
	char text[TKC_TEXT_ROOM];
};

/* Returns the bytes of a file, at most one more than a script may have, or NULL with errno. */
char *script_read(const char *path, size_t *length);

/* Parses a script. `script` is zero, except for keeps_reads. Returns false at the first fault. */
bool script_parse(struct script *script, const char *text, size_t length, struct fault *fault);

#endif
