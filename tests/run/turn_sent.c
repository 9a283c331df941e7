/* SPDX-License-Identifier: MIT OR Apache-2.0 */
/*
 * turn_sent HOW: a process sends a signal to another one, or starts a program. Prints what it finds by
 * its next call: the other one has acted. On the host it may not have.
 */
#define _GNU_SOURCE
#include <errno.h>
#include <fcntl.h>
#include <pthread.h>
#include <signal.h>
#include <spawn.h>
#include <stdio.h>
#include <stdlib.h>
#include <string.h>
#include <sys/syscall.h>
#include <sys/wait.h>
#include <time.h>
#include <unistd.h>

#include "turn_naps.h"

enum { CALLS = 6, ROUNDS = 8, THREADS = 24, DEATHS = 20 };

static int ends[2];

/* Prints whether the end of a pipe has come, whose other end another process had. */
static void show_end(void)
{
	char byte;

	close(ends[1]);
	check(!fcntl(ends[0], F_SETFL, O_NONBLOCK), "O_NONBLOCK");
	printf("%zd ", read(ends[0], &byte, 1));
	close(ends[0]);
}

static void handle(int number)
{
	static char text[1];

	*text = (char)('0' + number % 10);
	if (write(ends[1], text, 1) != 1)
		_exit(1);
}

/* Sends a signal by one of the calls. */
static void send_signal(int how, pid_t process, int number)
{
	static const union sigval NONE;

	if (how == 0)
		check(!kill(process, number), "kill");
	else if (how == 1)
		check(!sigqueue(process, number, NONE), "sigqueue");
	else if (how == 2)
		check(!tgkill(process, process, number), "tgkill");
	else if (how == 3)
		check(!killpg(process, number), "killpg");
	else
		check(!syscall(how == 4 ? SYS_kill : SYS_tkill, process, number), "syscall");
}

/* A process that is killed has closed its files. */
static void show_killed(int how)
{
	pid_t process;
	char byte;

	check(!pipe(ends), "pipe");
	process = fork();
	if (!process) {
		setpgid(0, 0);
		memset(malloc(1 << 26), 1, 1 << 26); /* takes a while to free */
		for (check(write(ends[1], "r", 1) == 1, "write");;)
			pause();
	}
	check(read(ends[0], &byte, 1) == 1, "read");
	nap();
	send_signal(how, process, SIGKILL);
	show_end();
	waitpid(process, NULL, 0);
}

static void *run_handler(void *unused)
{
	for (;;)
		pause();
	return unused;
}

/* A thread that gets a signal needs the turn in its handler, and the sender may have it first. */
static void show_handled(int is_queued)
{
	static const union sigval NONE;
	pthread_t thread;
	char byte = '-';

	signal(SIGUSR1, handle);
	check(!pipe(ends) && !fcntl(ends[0], F_SETFL, O_NONBLOCK), "pipe");
	pthread_create(&thread, NULL, run_handler, NULL);
	nap();
	check(!(is_queued ? pthread_sigqueue(thread, SIGUSR1, NONE) : pthread_kill(thread, SIGUSR1)),
	      "signal");
	nap();
	check(read(ends[0], &byte, 1) == 1, "read");
	printf("%c ", byte);
}

/* The parent of a process with several threads finds that it has ended. The kernel says so when the
 * last of these is gone, which may be another one than the first. */
static void show_ended(void)
{
	pid_t process = fork();
	pthread_t thread;
	int has_ended;

	for (int i = 0; !process && i < THREADS; i++)
		check(!pthread_create(&thread, NULL, run_handler, NULL), "pthread_create");
	if (!process)
		run_handler(NULL);
	nap();
	check(!kill(process, SIGKILL), "kill");
	has_ended = waitpid(process, NULL, WNOHANG) == process;
	printf("%d ", has_ended);
	if (!has_ended)
		waitpid(process, NULL, 0);
}

/* A program that was started has closed the files that it doesn't inherit. */
static void show_started(int how, char **environment)
{
	char *words[] = { "sleep", "9", NULL };
	pid_t process = 0;
	FILE *file = NULL;

	check(!pipe2(ends, O_CLOEXEC), "pipe");
	if (how == 0)
		check(!posix_spawn(&process, "/bin/sleep", NULL, NULL, words, environment), "spawn");
	else if (how == 1)
		check(!posix_spawnp(&process, "sleep", NULL, NULL, words, environment), "spawnp");
	else
		check((file = popen("true", "r")) != NULL, "popen");
	show_end();
	if (file)
		pclose(file);
	else
		kill(process, SIGTERM);
	if (!file)
		waitpid(process, NULL, 0);
}

int main(int count, char **words, char **environment)
{
	const char *how = count > 1 ? words[1] : "";

	for (int i = 0; i < CALLS && !strcmp(how, "killed"); i++)
		show_killed(i);
	for (int i = 0; i < 2 && !strcmp(how, "handled"); i++)
		show_handled(i);
	for (int i = 0; i < DEATHS && !strcmp(how, "ended"); i++)
		show_ended();
	for (int i = 0; i < 3 * ROUNDS && !strcmp(how, "started"); i++)
		show_started(i % 3, environment);
	puts(how);
	return 0;
}
