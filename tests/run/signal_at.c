/* SPDX-License-Identifier: MIT OR Apache-2.0 */
/*
 * Traces tkrun, and sends it SIGINT at one of the stops of its first thread that follow the fork of
 * the program: a thread stops where it begins a system call, and where it ends one. If tkrun waits
 * for signals by then, "waits" is printed.
 *
 *     signal_at STOP TKRUN ARGS..
 */
#define _GNU_SOURCE
#include "tracer.h"

#include <stdbool.h>
#include <stdio.h>
#include <sys/syscall.h>

static pid_t first; /* thread */
static long stops_left;
static bool has_forked, waits;

static void note_call(pid_t thread)
{
	struct __ptrace_syscall_info info;

	if (ptrace(PTRACE_GET_SYSCALL_INFO, thread, sizeof(info), &info) < 0 ||
	    info.op != PTRACE_SYSCALL_INFO_ENTRY)
		return;
	if (info.entry.nr == SYS_clone || info.entry.nr == SYS_fork)
		has_forked = true;
	if (info.entry.nr == SYS_rt_sigtimedwait)
		waits = true;
}

static void send_at_stop(pid_t thread)
{
	if (!first)
		first = thread;
	if (thread != first)
		return;
	note_call(thread);
	if (!has_forked || stops_left-- != 0)
		return;
	kill(first, SIGINT);
	if (waits)
		puts("waits");
}

int main(int count, char **words)
{
	if (count < 3)
		return EXIT_FAILURE;
	stops_left = atol(words[1]);
	return trace_program(words + 2, send_at_stop);
}
