/* SPDX-License-Identifier: MIT OR Apache-2.0 */
/*
 * Leaves a sleep or a timer in another way than by its end, and sleeps again.
 *
 *     left jump              a handler jumps out of it after two seconds, and the second
 *                            sleep takes 100; prints MONOTONIC in s
 *     left exec PROGRAM ..   another thread executes the program after a second, during a sleep
 *     left file              it closes a timer of a millisecond, and sleeps for an hour
 *     left alone             no thread can be started, so that no timer can be set
 *     left fork              a handler ends it, whose child leaves it after the second sleep has
 *                            begun, which takes 100; prints MONOTONIC in s
 */
#define _GNU_SOURCE
#include <errno.h>
#include <pthread.h>
#include <setjmp.h>
#include <signal.h>
#include <stdio.h>
#include <stdlib.h>
#include <string.h>
#include <sys/resource.h>
#include <sys/timerfd.h>
#include <time.h>
#include <unistd.h>

/* Returns when the main thread of a process waits. */
static void await_wait(pid_t process)
{
	char path[32], state = 0;
	FILE *file;

	snprintf(path, sizeof(path), "/proc/%d/stat", process);
	while (state != 'S' && state != 'D') {
		file = fopen(path, "re");
		if (!file || fscanf(file, "%*d %*s %c", &state) != 1)
			perror("left");
		fclose(file);
	}
}

static sigjmp_buf place;

static void jump(int number)
{
	(void)number;
	siglongjmp(place, 1);
}

static void print_monotonic(void)
{
	struct timespec now;

	clock_gettime(CLOCK_MONOTONIC, &now);
	printf("%lld\n", (long long)now.tv_sec);
}

static void leave_by_jump(void)
{
	signal(SIGALRM, jump);
	if (!sigsetjmp(place, 1)) {
		alarm(2);
		sleep(10);
	}
	sleep(100);
	print_monotonic();
}

static int to_child[2], to_other[2]; /* pipes */

static void send(const int *ends)
{
	if (write(ends[1], "x", 1) != 1)
		perror("left");
}

static void receive(const int *ends)
{
	char byte;

	if (read(ends[0], &byte, 1) != 1)
		perror("left");
}

/* The child returns to the sleep when the other process lets it. */
static void divide(int number)
{
	(void)number;
	if (!fork())
		receive(to_child);
}

/* Ends the first sleep of a process, and lets its child leave it during the second one. Then
 * waits for an hour, which no other process does. */
static void divide_other(pid_t process)
{
	await_wait(process);
	kill(process, SIGUSR1);
	receive(to_other);
	await_wait(process);
	send(to_child);
	sleep(3600);
	_exit(0);
}

static void leave_in_child(void)
{
	pid_t own = getpid(), other;

	if (pipe(to_child) || pipe(to_other))
		perror("left");
	signal(SIGUSR1, divide);
	other = fork();
	if (!other)
		divide_other(own);
	sleep(10);
	if (getpid() != own)
		_exit(0);
	send(to_other);
	sleep(100);
	print_monotonic();
	kill(other, SIGKILL);
}

static const struct itimerspec MILLISECOND = { { 0, 1000000 },
						{ 0, 1000000 } };

static void leave_file(void)
{
	int file = timerfd_create(CLOCK_MONOTONIC, 0);

	if (timerfd_settime(file, 0, &MILLISECOND, NULL) || close(file))
		perror("left");
	sleep(3600);
}

static void set_alone(void)
{
	struct rlimit none = { 1 << 20, 1 << 20 };
	int file = timerfd_create(CLOCK_MONOTONIC, 0);

	setrlimit(RLIMIT_AS, &none);
	if (!timerfd_settime(file, 0, &MILLISECOND, NULL) || errno != EAGAIN)
		perror("left");
}

static void *execute(void *words)
{
	char **program = words;

	await_wait(getpid());
	sleep(1);
	execvp(*program, program);
	perror("left");
	exit(EXIT_FAILURE);
}

int main(int count, char **words)
{
	pthread_t thread;

	if (count < 2)
		return EXIT_FAILURE;
	if (!strcmp(words[1], "jump"))
		leave_by_jump();
	else if (!strcmp(words[1], "file"))
		leave_file();
	else if (!strcmp(words[1], "alone"))
		set_alone();
	else if (!strcmp(words[1], "fork"))
		leave_in_child();
	if (strcmp(words[1], "exec"))
		return 0;
	pthread_create(&thread, NULL, execute, words + 2);
	sleep(10);
	return 0;
}
