/* SPDX-License-Identifier: MIT OR Apache-2.0 */
/*
 * Traces tkrun and its threads. The wait for a second SIGTERM or SIGINT, which has a limit of time,
 * gets none, and "waits" is printed: then only a second signal ends it.
 *
 *     held_grace TKRUN ARGS..
 */
#define _GNU_SOURCE
#include "grace.h"

#include <stddef.h>
#include <stdio.h>
#include <sys/user.h>

static void hold(pid_t thread)
{
	uint64_t limit;

	if (!begins_limited_wait(thread, &limit))
		return;
	ptrace(PTRACE_POKEUSER, thread, offsetof(struct user_regs_struct, rdx), 0);
	puts("waits");
	fflush(stdout);
}

int main(int count, char **words)
{
	return count > 1 ? trace_program(words + 1, hold) : EXIT_FAILURE;
}
