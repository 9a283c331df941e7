/* SPDX-License-Identifier: MIT OR Apache-2.0 */
/*
 * Interrupts sleeps by signals, and prints what is wrong (nanosleep(2),
 * signal(7)).
 *
 *     interrupted [SLACK]
 *
 * A sleep may begin and end SLACK ms late. If it isn't given, sleeps take their spans and
 * a cycle of 1 ns.
 */
#define _GNU_SOURCE
#include "faults.h"

#include <pthread.h>
#include <signal.h>
#include <stdbool.h>
#include <stdint.h>
#include <stdio.h>
#include <stdlib.h>
#include <string.h>
#include <sys/wait.h>
#include <time.h>
#include <unistd.h>

/* Each sleep takes a cycle of 1 ns more than its span, and no case has more sleeps. */
enum { SECOND = 1000000000, CYCLES = 8 };

static int64_t slack; /* ns */
static int64_t nanos(struct timespec time)
{
	return time.tv_sec * INT64_C(1000000000) + time.tv_nsec;
}

static int64_t now(void)
{
	struct timespec time;

	clock_gettime(CLOCK_MONOTONIC, &time);
	return nanos(time);
}

static bool is_about(int64_t span, int64_t seconds)
{
	return span >= seconds * SECOND && span <= seconds * SECOND + slack;
}

/* A sleep that began late has more left when a signal comes. */
static bool is_near(int64_t span, int64_t seconds)
{
	return span >= seconds * SECOND - slack &&
	       span <= seconds * SECOND + slack;
}

static void on_signal(int number)
{
	(void)number;
}

static void catch_signal(int number, int flags)
{
	struct sigaction action = { .sa_handler = on_signal,
				    .sa_flags = flags };

	sigaction(number, &action, NULL);
}

/* Starts a process that sends a signal to this one after two seconds. */
static void send_later(int number)
{
	pid_t parent = getpid();

	if (fork())
		return;
	sleep(2);
	kill(parent, number);
	_exit(0);
}

/* SA_RESTART doesn't continue a sleep, and the rest is what is left. */
static void check_rest(int flags)
{
	struct timespec span = { 20, 0 }, rest = { -1, -1 };
	int64_t start = now();

	catch_signal(SIGUSR1, flags);
	send_later(SIGUSR1);
	CHECK(nanosleep(&span, &rest) && errno == EINTR);
	CHECK(is_about(now() - start, 2));
	CHECK(is_near(nanos(rest), 18) &&
	      is_about(nanos(rest) + now() - start, 20));
	start = now();
	send_later(SIGUSR1);
	CHECK(clock_nanosleep(CLOCK_BOOTTIME, 0, &span, &span) == EINTR);
	CHECK(is_about(now() - start, 2));
	CHECK(is_about(nanos(span) + now() - start, 20));
	while (wait(NULL) > 0)
		;
}

static void check_absolute(void)
{
	struct timespec until, rest = { -1, -1 };

	catch_signal(SIGUSR1, 0);
	send_later(SIGUSR1);
	clock_gettime(CLOCK_MONOTONIC, &until);
	until.tv_sec += 20;
	CHECK(clock_nanosleep(CLOCK_MONOTONIC, TIMER_ABSTIME, &until, &rest) ==
	      EINTR);
	CHECK(rest.tv_sec == -1 && rest.tv_nsec == -1);
	while (wait(NULL) > 0)
		;
}

/* A signal that is ignored or blocked doesn't end a sleep. */
static void check_unheard(void)
{
	struct timespec span = { 5, 0 };
	int64_t start = now();
	sigset_t set;

	signal(SIGUSR1, SIG_IGN);
	sigemptyset(&set);
	sigaddset(&set, SIGUSR2);
	sigprocmask(SIG_BLOCK, &set, NULL);
	send_later(SIGUSR1);
	send_later(SIGUSR2);
	CHECK(!nanosleep(&span, NULL));
	CHECK(is_about(now() - start, 5));
	while (wait(NULL) > 0)
		;
}

/* A stop leaves the end of a sleep. */
static void sleep_six(void)
{
	struct timespec span = { 6, 0 };
	int64_t start = now();

	CHECK(!nanosleep(&span, NULL));
	CHECK(is_about(now() - start, 6));
}

/* A handler of SIGCONT ends a sleep. The kernel has stored what was left when it
 * was stopped, libtkrun.so stores what is left now. The same call sleeps anew. */
static void sleep_twice(void)
{
	struct timespec span = { 20, 0 }, rest = { -1, -1 };
	int64_t start = 0;
	int results[2];

	catch_signal(SIGCONT, 0);
	for (int i = 0; i < 2; i++) {
		start = now();
		results[i] = nanosleep(&span, &rest);
		span.tv_sec = 5;
	}
	CHECK(results[0] && !results[1]);
	CHECK(is_about(now() - start, 5));
	CHECK(is_near(nanos(rest), 16) || is_near(nanos(rest), 18));
}

/* Runs a function in a process that is stopped after two seconds, for two. */
static void check_stop(void (*run)(void))
{
	int status = -1;
	pid_t child = fork();

	if (!child) {
		run();
		fflush(stdout);
		_exit(faults);
	}
	sleep(2);
	kill(child, SIGSTOP);
	CHECK(waitpid(child, &status, WUNTRACED) == child &&
	      WIFSTOPPED(status));
	sleep(2);
	kill(child, SIGCONT);
	CHECK(waitpid(child, &status, 0) == child && !status);
}

/* A process whose sleep a signal ends without a handler. */
static void check_death(void)
{
	struct timespec span = { 20, 0 };
	int status = 0;
	pid_t child = fork();

	if (!child) {
		/* a shell's background jobs ignore it */
		signal(SIGQUIT, SIG_DFL);
		nanosleep(&span, NULL);
		_exit(0);
	}
	sleep(1);
	kill(child, SIGQUIT);
	CHECK(waitpid(child, &status, 0) == child && WIFSIGNALED(status));
}

static void *sleep_long(void *rest)
{
	struct timespec span = { 20, 0 };

	CHECK(nanosleep(&span, rest) && errno == EINTR);
	return NULL;
}

/* A signal for one thread of two that sleep. */
static void check_thread(void)
{
	struct timespec rest = { -1, -1 }, span = { 5, 0 };
	int64_t start = now();
	pthread_t thread;

	catch_signal(SIGUSR1, SA_RESTART);
	pthread_create(&thread, NULL, sleep_long, &rest);
	sleep(3);
	pthread_kill(thread, SIGUSR1);
	CHECK(!nanosleep(&span, NULL));
	CHECK(is_about(now() - start, 8));
	pthread_join(thread, NULL);
	CHECK(is_near(nanos(rest), 17));
}

int main(int count, char **words)
{
	slack = count > 1 ? atoll(words[1]) * 1000000 : CYCLES;
	check_rest(0);
	check_rest(SA_RESTART);
	check_absolute();
	check_unheard();
	check_stop(sleep_six);
	check_stop(sleep_twice);
	check_death();
	check_thread();
	return faults > 0;
}
