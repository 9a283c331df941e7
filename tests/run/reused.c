/* SPDX-License-Identifier: MIT OR Apache-2.0 */
/*
 * Kills a process while it waits for a system call about time, and starts another
 * one with its number, which sees whether its own memory is written.
 *
 * It prints "up" and waits for a byte of standard input first. Prints "written" or
 * "unwritten".
 */
#define _GNU_SOURCE
#include <linux/sched.h>
#include <poll.h>
#include <signal.h>
#include <stdint.h>
#include <stdio.h>
#include <stdlib.h>
#include <string.h>
#include <sys/syscall.h>
#include <sys/wait.h>
#include <time.h>
#include <unistd.h>

/* how long the call waits at least, and what the other process waits, in ms */
enum { BEFORE_KILL = 300, AFTER_KILL = 3000 };

static struct timespec place; /* at the same address in both */

/* Starts a process by a number that is free. Returns as fork does. */
static pid_t fork_as(pid_t number)
{
	struct clone_args how = { .exit_signal = SIGCHLD,
				  .set_tid = (uintptr_t)&number,
				  .set_tid_size = 1 };

	return (pid_t)syscall(SYS_clone3, &how, sizeof(how));
}

/* Ends the process with status 1 if another one has written to `place`. */
static void watch(void)
{
	const struct timespec none = { 0 };

	poll(NULL, 0, AFTER_KILL);
	_exit(!!memcmp(&place, &none, sizeof(none)));
}

int main(void)
{
	pid_t first, other;
	int status = 0;

	printf("up\n");
	fflush(stdout);
	getchar();
	first = fork();
	if (!first) {
		syscall(SYS_clock_gettime, CLOCK_REALTIME, &place);
		_exit(0);
	}
	poll(NULL, 0, BEFORE_KILL);
	kill(first, SIGKILL);
	waitpid(first, &status, 0);
	if (!WIFSIGNALED(status)) {
		printf("the call didn't wait\n");
		return EXIT_FAILURE;
	}
	other = fork_as(first);
	if (!other)
		watch();
	if (other != first || waitpid(other, &status, 0) != other) {
		perror("reused: clone3");
		return EXIT_FAILURE;
	}
	printf("%s\n", WEXITSTATUS(status) ? "written" : "unwritten");
	return 0;
}
