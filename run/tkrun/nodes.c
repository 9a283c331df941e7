/* SPDX-License-Identifier: MIT OR Apache-2.0 */
/* nodes.c - the nodes of a run, and which process belongs to which. */
#define _GNU_SOURCE
#include "tkrun.h"

#include "processes/status.h"

#include <stdio.h>
#include <stdlib.h>
#include <string.h>
#include <sys/resource.h>

enum { LIMITS_BYTES = 4096 };

struct run the_run;

size_t node_count(void)
{
	return the_run.count;
}

struct machine *node_machine(size_t node)
{
	return &the_run.nodes[node].machine;
}

/* Returns the soft limit of file locks of a thread whose limits tkrun may not ask for, or 0. */
static uint64_t read_limit(int thread)
{
	static const char LINE[] = "\nMax file locks";
	char path[64], text[LIMITS_BYTES];
	const char *line;

	snprintf(path, sizeof(path), "/proc/%d/limits", thread);
	line = proc_read(path, text, sizeof(text)) ? strstr(text, LINE) : NULL;
	return line ? strtoull(line + sizeof(LINE) - 1, NULL, 10) : 0;
}

size_t node_of(int thread)
{
	struct rlimit limit = { 0 };

	if (the_run.count == 1)
		return 0;
	if (prlimit(thread, RLIMIT_LOCKS, NULL, &limit))
		limit.rlim_cur = read_limit(thread);
	return limit.rlim_cur - NODE_LIMIT < the_run.count ? limit.rlim_cur - NODE_LIMIT : 0;
}

const char *node_prefix(const struct node *node)
{
	static char prefix[NODE_NAME_MOST + 3];

	if (!node->options.name)
		return "";
	snprintf(prefix, sizeof(prefix), "%s: ", node->options.name);
	return prefix;
}
