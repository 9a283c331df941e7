/* SPDX-License-Identifier: MIT OR Apache-2.0 */
/* tracer.h - traces a program and its threads, and not the processes that it forks. */
#ifndef TRACER_H
#define TRACER_H

#include <signal.h>
#include <stdlib.h>
#include <sys/ptrace.h>
#include <sys/wait.h>
#include <unistd.h>

enum {
	SYSCALL_STOP = SIGTRAP | 0x80,
	TRACE_OPTIONS = PTRACE_O_TRACESYSGOOD | PTRACE_O_TRACECLONE | PTRACE_O_EXITKILL,
};

/* Looks at a thread when it enters or leaves a system call. */
typedef void (*thread_look)(pid_t thread);

/* Lets a stopped thread go on to the next stop, with its signal if it is one of the program's. A
 * new thread begins with a SIGSTOP. */
static inline void go_on(pid_t thread, int status, thread_look look)
{
	int number = WSTOPSIG(status);

	if (number == SYSCALL_STOP)
		look(thread);
	if (number == SYSCALL_STOP || number == SIGSTOP || number == SIGTRAP)
		number = 0;
	ptrace(PTRACE_SYSCALL, thread, 0, number);
}

/* Runs a program, and looks at each of its system calls. Returns its status. */
static inline int trace_program(char **words, thread_look look)
{
	int status = 0, result = EXIT_FAILURE;
	pid_t program = fork(), thread;

	if (!program) {
		if (!ptrace(PTRACE_TRACEME, 0, 0, 0))
			execvp(*words, words);
		_exit(EXIT_FAILURE);
	}
	if (program < 0 || waitpid(program, &status, 0) < 0 || !WIFSTOPPED(status) ||
	    ptrace(PTRACE_SETOPTIONS, program, 0, TRACE_OPTIONS))
		return result;
	go_on(program, status, look);
	while ((thread = waitpid(-1, &status, __WALL)) > 0) {
		if (thread == program && WIFEXITED(status))
			result = WEXITSTATUS(status);
		if (WIFSTOPPED(status))
			go_on(thread, status, look);
	}
	return result;
}

#endif
