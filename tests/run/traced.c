/* SPDX-License-Identifier: MIT OR Apache-2.0 */
/*
 * Traces a program that it executes, so that nobody else can.
 *
 *     traced PROGRAM ARGS..
 */
#define _GNU_SOURCE
#include <stdlib.h>
#include <sys/ptrace.h>
#include <sys/wait.h>
#include <unistd.h>

int main(int count, char **words)
{
	pid_t child = fork();
	int status = 0;

	if (!child && count > 1) {
		if (!ptrace(PTRACE_TRACEME, 0, 0, 0))
			execvp(words[1], words + 1);
		_exit(EXIT_FAILURE);
	}
	while (waitpid(child, &status, 0) > 0 && WIFSTOPPED(status))
		ptrace(PTRACE_CONT, child, 0, 0);
	return status != 0;
}
