/* SPDX-License-Identifier: MIT OR Apache-2.0 */
/* tkcore.c - finds tkcore, and starts it. */
#define _GNU_SOURCE
#include "recording.h"
#include "tkrun/signals.h"

#include <fcntl.h>
#include <limits.h>
#include <stdio.h>
#include <stdlib.h>
#include <string.h>
#include <unistd.h>

static char tkcore[2 * PATH_MAX];

/* Looks for tkcore in a folder. */
static bool is_in(const char *folder, size_t length)
{
	snprintf(tkcore, sizeof(tkcore), "%.*s/tkcore", (int)length, folder);
	return !access(tkcore, X_OK);
}

void find_tkcore(void)
{
	const char *next = getenv("PATH");
	char self[PATH_MAX];
	ssize_t length = readlink("/proc/self/exe", self, sizeof(self) - 1);

	self[length < 0 ? 0 : length] = 0;
	if (strrchr(self, '/') &&
	    is_in(self, (size_t)(strrchr(self, '/') - self)))
		return;
	while (next && *next) {
		size_t part = strcspn(next, ":");

		if (part && is_in(next, part))
			return;
		next += part + (next[part] == ':');
	}
	fail(STATUS_FAILED,
	     "--check: tkcore is neither in tkrun's folder nor in PATH");
}

static void run_tkcore(const char *script, int output)
{
	int input = open(script, O_RDONLY | O_CLOEXEC);

	if (input < 0)
		_exit(STATUS_FAILED);
	dup2(input, 0);
	dup2(output, 1);
	signals_restore();
	execl(tkcore, "tkcore", "replay", "--keep", "1000", NULL);
	_exit(STATUS_NOT_FOUND);
}

FILE *tkcore_replay(const char *script, pid_t *child)
{
	FILE *lines;
	int ends[2];

	if (pipe2(ends, O_CLOEXEC))
		return NULL;
	*child = fork();
	if (*child < 0) {
		close(ends[0]);
		close(ends[1]);
		return NULL;
	}
	if (!*child)
		run_tkcore(script, ends[1]);
	close(ends[1]);
	signals_pass_to(*child);
	lines = fdopen(ends[0], "r");
	if (!lines)
		close(ends[0]);
	return lines;
}
