/* SPDX-License-Identifier: MIT OR Apache-2.0 */
/*
 * Executes a program that has no vDSO, so that each of its reads of a clock is a
 * system call, as on a host whose clocksource the vDSO can't read.
 *
 *     novdso PROGRAM ARGS..
 */
#define _GNU_SOURCE
#include <elf.h>
#include <stdio.h>
#include <stdlib.h>
#include <sys/ptrace.h>
#include <sys/user.h>
#include <sys/wait.h>
#include <unistd.h>

enum { WORD = sizeof(long) };

static unsigned long peek(pid_t child, unsigned long at)
{
	return (unsigned long)ptrace(PTRACE_PEEKDATA, child, at, 0);
}

/* Skips words of the stack after a 0. */
static unsigned long skip(pid_t child, unsigned long at)
{
	while (peek(child, at))
		at += WORD;
	return at + WORD;
}

/* Lets the program that was executed not find the vDSO. */
static void hide_vdso(pid_t child)
{
	struct user_regs_struct registers;
	unsigned long at;

	ptrace(PTRACE_GETREGS, child, 0, &registers);
	at = skip(child, skip(child, registers.rsp + WORD));
	while (peek(child, at) != AT_NULL && peek(child, at) != AT_SYSINFO_EHDR)
		at += 2 * WORD;
	if (peek(child, at) != AT_NULL)
		ptrace(PTRACE_POKEDATA, child, at, AT_IGNORE);
}

int main(int count, char **words)
{
	pid_t child = fork();
	int status = 0;

	if (!child && count > 1) {
		if (!ptrace(PTRACE_TRACEME, 0, 0, 0))
			execvp(words[1], words + 1);
		_exit(EXIT_FAILURE);
	}
	if (waitpid(child, &status, 0) != child || !WIFSTOPPED(status))
		return EXIT_FAILURE;
	hide_vdso(child);
	ptrace(PTRACE_DETACH, child, 0, 0);
	waitpid(child, &status, 0);
	return WIFEXITED(status) ? WEXITSTATUS(status) : EXIT_FAILURE;
}
