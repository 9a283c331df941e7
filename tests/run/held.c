/* SPDX-License-Identifier: MIT OR Apache-2.0 */
/*
 * Stops a process that sets the clocks, while it has their lock, and prints its number.
 * Ends when that process has gone on and ended.
 */
#define _GNU_SOURCE
#include <fcntl.h>
#include <linux/futex.h>
#include <signal.h>
#include <stdio.h>
#include <stdlib.h>
#include <sys/mman.h>
#include <sys/ptrace.h>
#include <sys/wait.h>
#include <time.h>
#include <unistd.h>

/* Maps the lock: the first word of struct control in run/clocks/shared.h contains its owner. */
static const volatile int *map_lock(void)
{
	char path[4096];
	void *memory;
	int file;

	snprintf(path, sizeof(path), "%s/control", getenv("TKRUN"));
	file = open(path, O_RDONLY);
	memory = mmap(NULL, sizeof(int), PROT_READ, MAP_SHARED, file, 0);
	if (memory == MAP_FAILED) {
		perror("held: control");
		exit(EXIT_FAILURE);
	}
	return memory;
}

static void set_once(void)
{
	const struct timespec time = { 1000000000, 0 };

	ptrace(PTRACE_TRACEME, 0, 0, 0);
	raise(SIGSTOP);
	_exit(!!clock_settime(CLOCK_REALTIME, &time));
}

int main(void)
{
	const volatile int *lock = map_lock();
	pid_t writer = fork();
	int status = 0;

	if (!writer)
		set_once();
	waitpid(writer, &status, 0);
	while (WIFSTOPPED(status) && (*lock & FUTEX_TID_MASK) != writer) {
		ptrace(PTRACE_SINGLESTEP, writer, 0, 0);
		waitpid(writer, &status, 0);
	}
	kill(writer, SIGSTOP);
	ptrace(PTRACE_DETACH, writer, 0, 0);
	printf("%d\n", writer);
	fflush(stdout);
	waitpid(writer, &status, 0);
	return status;
}
