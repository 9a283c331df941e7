/* SPDX-License-Identifier: MIT OR Apache-2.0 */
/* grace.h - finds the wait of a traced tkrun for a second signal. */
#ifndef GRACE_H
#define GRACE_H

#include "tracer.h"

#include <stdbool.h>
#include <stdint.h>
#include <sys/syscall.h>

/* Returns whether a thread begins a wait for SIGTERM that has a limit of time, and stores the
 * address of the limit. */
static inline bool begins_limited_wait(pid_t thread, uint64_t *limit)
{
	struct __ptrace_syscall_info info;
	uint64_t set;

	if (ptrace(PTRACE_GET_SYSCALL_INFO, thread, sizeof(info), &info) < 0 ||
	    info.op != PTRACE_SYSCALL_INFO_ENTRY || info.entry.nr != SYS_rt_sigtimedwait)
		return false;
	set = (uint64_t)ptrace(PTRACE_PEEKDATA, thread, info.entry.args[0], 0);
	*limit = info.entry.args[2];
	return set >> (SIGTERM - 1) & 1 && *limit;
}

#endif
