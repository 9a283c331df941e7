/* SPDX-License-Identifier: MIT OR Apache-2.0 */
/* enter_node.c - tkrun node NAME -- PROGRAM ARGS: executes a program on a node. */
#define _GNU_SOURCE
#include "tkrun.h"

#include <errno.h>
#include <stdio.h>
#include <stdlib.h>
#include <string.h>
#include <sys/resource.h>
#include <unistd.h>

/* The clocks of this process may be those of a node. */
const char *find_run(void)
{
	const char *folder = getenv("TKRUN"), *last = folder ? strrchr(folder, '/') : NULL;

	if (!last)
		return NULL;
	return strncmp(last + 1, NODE_FOLDER, strlen(NODE_FOLDER))
		       ? folder
		       : strndup(folder, (size_t)(last - folder));
}

/* Lets this process, and all that it starts, belong to a node. */
static void join_node(const char *folder, uint32_t number)
{
	struct rlimit limit;

	if (getrlimit(RLIMIT_LOCKS, &limit))
		limit.rlim_max = 0;
	limit.rlim_cur = NODE_LIMIT + number;
	if (limit.rlim_max < limit.rlim_cur || setrlimit(RLIMIT_LOCKS, &limit) ||
	    setenv("TKRUN", folder, 1))
		fail(STATUS_FAILED, "node: the limit of file locks can't be set");
}

/* Does so by the node's name. */
static void join_by_name(const char *name)
{
	const char *run = find_run();
	struct machine machine = { 0 };
	char folder[PATH_MAX];

	if (!run)
		fail(STATUS_WRONG, "node: this program isn't run by tkrun");
	snprintf(folder, sizeof(folder), "%s/" NODE_FOLDER "%s", run, name);
	if (!is_node_name(name) || !machine_attach(&machine, folder))
		fail(STATUS_WRONG, "node: there is no node '%s'", name);
	join_node(folder, machine.shared->node);
}

/* A program may be named `node`, and takes other arguments. */
void enter_node(int count, char **words)
{
	if (count < 4 || strcmp(words[1], "node") || strcmp(words[3], "--"))
		return;
	if (count == 4)
		fail(STATUS_WRONG, "no program: tkrun node NAME -- PROGRAM ARGS..");
	join_by_name(words[2]);
	execvp(words[4], words + 4);
	fail(errno == ENOENT ? STATUS_NOT_FOUND : STATUS_NOT_RUN, "cannot run '%s': %s", words[4],
	     strerror(errno));
}
