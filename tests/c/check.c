/* SPDX-License-Identifier: MIT OR Apache-2.0 */
#include "check.h"

#include <inttypes.h>
#include <stdio.h>
#include <stdlib.h>
#include <string.h>

const char *case_name;
uint64_t case_number;

void fail(const char *what, const char *file, int line)
{
	fprintf(stderr, "%s:%d: ", file, line);
	if (case_name)
		fprintf(stderr, "%s %" PRIu64 ": ", case_name, case_number);
	fprintf(stderr, "not so: %s\n", what);
	exit(EXIT_FAILURE);
}

bool is_same_snapshot(const struct tkc_snapshot *snapshot,
		      const uint64_t words[TKC_WORDS])
{
	uint64_t found[TKC_WORDS];

	tkc_snapshot_words(found, snapshot);
	return !memcmp(found, words, sizeof(found));
}
