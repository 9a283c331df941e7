/* SPDX-License-Identifier: MIT OR Apache-2.0 */
/*
 * Traces tkrun and its threads. The first wait for a second SIGTERM or SIGINT fails with EINTR, as
 * it does when tkrun is stopped and goes on. Before that, the host's time of the wait passes. The
 * limit of the next wait is printed, in ns.
 *
 *     interrupted_grace TKRUN ARGS..
 */
#define _GNU_SOURCE
#include "grace.h"

#include <errno.h>
#include <stddef.h>
#include <stdio.h>
#include <sys/user.h>
#include <time.h>

static pid_t interrupted; /* the thread whose wait is left out */
static int waits;

static uint64_t word_at(pid_t thread, uint64_t address)
{
	return (uint64_t)ptrace(PTRACE_PEEKDATA, thread, address, 0);
}

static void write_register(pid_t thread, size_t place, uint64_t value)
{
	ptrace(PTRACE_POKEUSER, thread, place, value);
}

/* Lets the thread make no call. */
static void leave_out(pid_t thread)
{
	write_register(thread, offsetof(struct user_regs_struct, orig_rax), UINT64_MAX);
	interrupted = thread;
}

/* Lets the host's time pass, and the call that was left out fail. */
static void interrupt(pid_t thread, const struct timespec *span)
{
	nanosleep(span, NULL);
	write_register(thread, offsetof(struct user_regs_struct, rax), (uint64_t)-EINTR);
	interrupted = 0;
}

static void look(pid_t thread)
{
	static struct timespec limit;
	uint64_t address;

	if (thread == interrupted)
		interrupt(thread, &limit);
	if (!begins_limited_wait(thread, &address))
		return;
	limit = (struct timespec){ (time_t)word_at(thread, address),
				   (long)word_at(thread, address + sizeof(time_t)) };
	if (++waits == 1)
		leave_out(thread);
	else
		printf("%lld\n", limit.tv_sec * 1000000000LL + limit.tv_nsec);
	fflush(stdout);
}

int main(int count, char **words)
{
	return count > 1 ? trace_program(words + 1, look) : EXIT_FAILURE;
}
