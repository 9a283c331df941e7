/* SPDX-License-Identifier: MIT OR Apache-2.0 */
/* find_library.c - finds the library, and lets programs load it. */
#define _GNU_SOURCE
#include "tkrun.h"

#include <stdio.h>
#include <stdlib.h>
#include <string.h>
#include <unistd.h>

static const char LIBRARY[] = "libtkrun.so", NET_LIBRARY[] = "libtkrun-net.so",
		  TURNS_LIBRARY[] = "libtkrun-turns.so";

/* A library, which tools/build_run puts next to the folder of tkrun. */
static void find_library(const char *name, char *path, size_t size)
{
	char self[PATH_MAX];
	ssize_t length = readlink("/proc/self/exe", self, sizeof(self) - 1);

	self[length < 0 ? 0 : length] = 0;
	for (int i = 0; i < 2 && strrchr(self, '/'); i++)
		*strrchr(self, '/') = 0;
	if (snprintf(path, size, "%s/lib/%s", self, name) >= (int)size ||
	    access(path, R_OK))
		fail(STATUS_FAILED, "cannot read the library '%s'", path);
	if (strpbrk(path, " :"))
		fail(STATUS_FAILED,
		     "the library '%s' can't be preloaded: its name has a space or a colon",
		     path);
}

static bool is_own(const char *path)
{
	const char *name = basename(path);

	return !strcmp(name, LIBRARY) || !strcmp(name, NET_LIBRARY) ||
	       !strcmp(name, TURNS_LIBRARY);
}

/* Puts the libraries in front of LD_PRELOAD, without those of a tkrun outside. */
static void set_preload(const char *turns, const char *library, const char *net)
{
	const char *others = getenv("LD_PRELOAD");
	char *copy = strdup(others ? others : ""), *end, *name;
	char *list = malloc(strlen(turns) + strlen(library) + strlen(net) +
			    strlen(copy ? copy : "") + 4);

	if (!copy || !list)
		fail(STATUS_FAILED, "out of memory");
	end = list + sprintf(list, "%s%s%s", turns, *turns ? ":" : "", library);
	if (*net)
		end += sprintf(end, ":%s", net);
	for (name = strtok(copy, " :"); name; name = strtok(NULL, " :")) {
		if (!is_own(name))
			end += sprintf(end, ":%s", name);
	}
	if (setenv("LD_PRELOAD", list, 1))
		fail(STATUS_FAILED, "out of memory");
	free(list);
	free(copy);
}

void preload_library(bool has_net, bool has_turns)
{
	char library[PATH_MAX], net[PATH_MAX] = "", turns[PATH_MAX] = "";

	find_library(LIBRARY, library, sizeof(library));
	if (has_net)
		find_library(NET_LIBRARY, net, sizeof(net));
	if (has_turns)
		find_library(TURNS_LIBRARY, turns, sizeof(turns));
	set_preload(turns, library, net);
}
