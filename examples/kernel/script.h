/* SPDX-License-Identifier: MIT OR Apache-2.0 */
/*
 * script.h - parses the scripts of tkcore. A script starts with an opening; each row after it is a
 * command or a read of a clock. docs/TKCORE.md describes the format. The records `counter` and
 * `adjtimex` are faults here, and so is an opening with HZ or with the numbers of a discipline.
 *
 * Other programs let the library parse scripts, by tkcore_session.h. A module can't, because that
 * archive is compiled by LLVM only: its code uses SSE registers and the red zone.
 */
#ifndef SCRIPT_H
#define SCRIPT_H

#include "record.h"

#include <tkcore.h>

/* The greatest size of a script, in bytes. */
enum { SCRIPT_LIMIT = 16777216 };

/* A command at a reading, or a read of a clock. */
struct row {
	bool is_read;
	uint64_t reading;
	uint32_t command; /* an argument of tkc_clock_apply, as number and nsec are */
	int64_t number;
	uint32_t nsec;
	uint32_t clock; /* an argument of tkc_snapshot_get */
	bool has_value; /* whether a read states the value that it expects */
	uint64_t value; /* this value, in ns */
};

/* The clocks as the first record opens them, and the rows after it. */
struct script {
	struct tkc_counter counter;
	struct tkc_clock clock;
	struct row *rows;
	size_t count;
};

/* Why a script is refused. Record 0 means the script as a whole. */
struct fault {
	size_t record;
	const char *text;
};

/*
 * Parses a script. It overwrites the text, because it removes quotes in place.
 * On the first fault it returns false, and the script then holds no memory.
 */
bool script_parse(struct script *script, char *text, size_t length,
		  struct fault *fault);
void script_free(struct script *script);

/* Returns the word with which a script names a clock. */
const char *script_clock_word(uint32_t clock);

#endif
