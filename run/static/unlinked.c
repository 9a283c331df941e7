/* SPDX-License-Identifier: MIT OR Apache-2.0 */
/* unlinked.c - names programs that send to other nodes as if there were no --link. */
#define _GNU_SOURCE
#include "stack.h"
#include "static.h"
#include "processes/status.h"

#include <elf.h>
#include <stdio.h>
#include <string.h>
#include <sys/ptrace.h>
#include <sys/user.h>

enum { NAMED_MOST = 16, NAME_BYTES = 32 };

/* Returns whether a name wasn't there yet. After NAMED_MOST of them, no more is new. */
static bool is_new(const char *name)
{
	static char named[NAMED_MOST][NAME_BYTES];
	static size_t count;

	for (size_t i = 0; i < count; i++) {
		if (!strcmp(named[i], name))
			return false;
	}
	if (count == NAMED_MOST)
		return false;
	strcpy(named[count++], name);
	return true;
}

/* Returns a value of the auxiliary vector of a program that starts, or 0. */
static uint64_t auxiliary(pid_t process, uint64_t top, uint64_t kind)
{
	uint64_t place = stack_find_auxiliary(process, top, kind);

	return place ? stack_peek(process, place + 8) : 0;
}

/* Returns why a program that starts doesn't load the library, or NULL. */
static const char *find_reason(pid_t process, uint64_t top)
{
	uint64_t environment = top + 8 * (stack_peek(process, top) + 2);

	if (!auxiliary(process, top, AT_BASE))
		return "it is static";
	if (auxiliary(process, top, AT_SECURE))
		return "it is setuid";
	return stack_has_preload(process, environment) ? NULL
						       : "it hasn't loaded the library";
}

void unlinked_check(pid_t process)
{
	struct user_regs_struct registers;
	char path[64], name[NAME_BYTES];
	const char *reason;

	if (!node_machine(node_of(process))->shared->peers.count || proc_is_tkrun(process) ||
	    ptrace(PTRACE_GETREGS, process, 0, &registers))
		return;
	reason = find_reason(process, registers.rsp);
	snprintf(path, sizeof(path), "/proc/%d/comm", process);
	if (!reason || !proc_read(path, name, sizeof(name)))
		return;
	name[strcspn(name, "\n")] = 0;
	if (is_new(name))
		fprintf(stderr,
			"tkrun: '%s' (process %d) sends to other nodes as if there were no link: %s\n",
			name, process, reason);
}
