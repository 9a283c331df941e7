/* SPDX-License-Identifier: MIT OR Apache-2.0 */
/* uncovered.c - names programs that read the host's clocks. */
#define _GNU_SOURCE
#include "uncovered.h"

#include "status.h"

#include <signal.h>
#include <stdio.h>
#include <string.h>
#include <unistd.h>

enum { NAMED_MOST = 16, NAME_BYTES = 256 };

static bool is_lax, is_over;

/* The programs that were named. `count` counts those that found no place, too. */
static char named[NAMED_MOST][NAME_BYTES];
static size_t count;

void uncovered_allow(void)
{
	is_lax = true;
}

bool uncovered_is_allowed(void)
{
	return is_lax;
}

bool uncovered_is_over(void)
{
	return is_over;
}

/* Returns whether a name is new. */
static bool add_name(const char *name)
{
	for (size_t i = 0; i < count && i < NAMED_MOST; i++) {
		if (!strncmp(named[i], name, NAME_BYTES - 1))
			return false;
	}
	if (count < NAMED_MOST)
		snprintf(named[count], NAME_BYTES, "%s", name);
	return ++count <= NAMED_MOST;
}

void uncovered_note(const char *name, pid_t process, const char *reason)
{
	if (is_over || !add_name(name))
		return;
	fprintf(stderr,
		"tkrun: '%.*s' (process %d) reads the host's clocks: %s\n",
		NAME_BYTES - 1, name, process, reason);
	if (is_lax)
		return;
	is_over = true;
	kill(getpid(), SIGTERM);
}

void uncovered_note_process(pid_t process, const char *reason)
{
	char path[64], name[64];

	snprintf(path, sizeof(path), "/proc/%d/comm", process);
	if (!proc_read(path, name, sizeof(name)))
		strcpy(name, "a process");
	name[strcspn(name, "\n")] = 0;
	uncovered_note(name, process, reason);
}

void uncovered_print_rest(void)
{
	if (count > NAMED_MOST)
		fprintf(stderr,
			"tkrun: %zu more programs read the host's clocks\n",
			count - NAMED_MOST);
}
