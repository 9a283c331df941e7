/* SPDX-License-Identifier: MIT OR Apache-2.0 */
/*
 * paces.c - writes the file RECORD.nodes, which places the true time and the readings of each
 * node's record on the common counter. A line is NAME,COMMON,READING,SCALE,SHIFT: when the common
 * counter is C, from COMMON on, the node's is READING + ((C - COMMON) * SCALE >> SHIFT). The
 * program's clocks have no name, and the true time in ns has TRUE_NAME.
 */
#define _GNU_SOURCE
#include "tkrun.h"

#include <errno.h>
#include <inttypes.h>
#include <stdio.h>
#include <string.h>

static FILE *file;
static char path[PATH_MAX];

__attribute__((noreturn)) static void fail_file(void)
{
	fail(STATUS_WRONG, "--record: cannot write '%s': %s", path, strerror(errno));
}

static void put_pace(const char *name, const struct pace *pace, uint64_t reading)
{
	fprintf(file, "%s,%" PRIu64 ",%" PRIu64 ",%" PRIu64 ",%" PRIu32 "\n", name, pace->since,
		reading, pace->scale, pace->shift);
}

void note_pace(const struct node *node)
{
	const struct pace *pace = &node->pace;
	const struct shared_page *shared = node->machine.shared;

	if (file)
		put_pace(node->options.name ? node->options.name : "", pace,
			 (shared->first + pace->cycles) & shared->mask);
}

void start_paces(struct run *run)
{
	if (snprintf(path, sizeof(path), "%s.nodes", run->nodes->options.record) >=
	    (int)sizeof(path))
		errno = ENAMETOOLONG;
	else
		file = fopen(path, "we");
	if (!file)
		fail_file();
	put_pace(TRUE_NAME, &run->truth, 0);
	for (size_t i = 0; i < run->count; i++)
		note_pace(&run->nodes[i]);
	if (fflush(file))
		fail_file();
}

void end_paces(void)
{
	bool is_whole = !file || !ferror(file);

	if (file && (fclose(file) || !is_whole))
		fprintf(stderr, "tkrun: cannot write the record '%s'\n", path);
}
