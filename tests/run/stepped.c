/* SPDX-License-Identifier: MIT OR Apache-2.0 */
/*
 * Kills processes at equally distant instructions of a call that sets the
 * clocks, while others read.
 *
 *     stepped COUNT [alone]
 *
 * A writer is traced through its call, an instruction at a time. COUNT others
 * are killed in that call, whatever they have locked or half written. After
 * each, the clocks are set once more, which must succeed. With `alone`, there are
 * no others, and this process reads the clocks first, so it takes over the lock:
 * it must have the same signals blocked as before. Prints the counts, as killed
 * does.
 */
#define _GNU_SOURCE
#include "readers.h"

#include <limits.h>
#include <signal.h>
#include <sys/ptrace.h>
#include <sys/syscall.h>

/* Makes a request for a process. If it isn't allowed, or the process has been
 * killed, the program ends. */
static void trace(enum __ptrace_request request, pid_t process)
{
	if (!ptrace(request, process, 0, 0))
		return;
	perror("stepped: ptrace");
	shared->is_over = true;
	_exit(EXIT_FAILURE);
}

/* The first call finds what it needs, so that the second one only sets. */
static void set_once(void)
{
	trace(PTRACE_TRACEME, 0);
	set_real(0);
	raise(SIGSTOP);
	set_real(1);
	_exit(0);
}

/* Lets a writer make `most` instructions after its stop, and kills it. Returns
 * how many it has made: fewer if it has ended. */
static long step(long most)
{
	pid_t writer = start(set_once);
	int status = 0;
	long steps = 0;

	waitpid(writer, &status, 0);
	while (WIFSTOPPED(status) && steps < most) {
		trace(PTRACE_SINGLESTEP, writer);
		waitpid(writer, &status, 0);
		steps++;
	}
	if (WIFSTOPPED(status)) {
		kill(writer, SIGKILL);
		waitpid(writer, &status, 0);
	}
	return steps;
}

/* Returns the blocked signals, by the kernel's own call. */
static unsigned long blocked(void)
{
	unsigned long set = 0;

	syscall(SYS_rt_sigprocmask, SIG_BLOCK, NULL, &set, sizeof(set));
	return set;
}

/* Reads the clocks, with one signal blocked. */
static void read_alone(void)
{
	unsigned long set;
	sigset_t one;

	sigemptyset(&one);
	sigaddset(&one, SIGUSR1);
	sigprocmask(SIG_SETMASK, &one, NULL);
	set = blocked();
	check_real();
	read_monotonic();
	shared->errors += blocked() != set;
	shared->reads++;
}

int main(int count, char **words)
{
	long kills = count > 1 ? atol(words[1]) : 10, all;
	bool is_alone = count > 2;

	if (is_alone)
		share();
	else
		start_readers();
	all = step(LONG_MAX);
	if (!all) {
		fprintf(stderr, "stepped: no instruction was traced\n");
		end_readers(0, READERS);
		return EXIT_FAILURE;
	}
	for (long i = 0; i < kills; i++) {
		step(i * all / kills);
		if (is_alone)
			read_alone();
		set_real((int)i);
	}
	return end_readers((int)kills, is_alone ? 0 : READERS);
}
