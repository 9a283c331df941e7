/* SPDX-License-Identifier: MIT OR Apache-2.0 */
/*
 * Reads the clocks by each call, in its first thread, in another one, and in a fork of it. Prints
 * for each read "PROCESS,THREAD,CALL,CLOCK".
 *
 *     asked library | static
 *     asked signals
 *
 * Without the library, the C library's functions make the calls of the vDSO or of the system. With
 * `signals`, it reads MONOTONIC by clock_gettime until a timer of its processor time has sent it 12
 * signals, whose handler reads REALTIME by gettimeofday. It prints their number.
 */
#define _GNU_SOURCE
#include "faults.h"
#include "vdso_functions.h"

#include <pthread.h>
#include <signal.h>
#include <stdio.h>
#include <sys/auxv.h>
#include <sys/syscall.h>
#include <sys/time.h>
#include <sys/timeb.h>
#include <sys/wait.h>
#include <time.h>
#include <unistd.h>

static const char *const CLOCKS[] = {
	[CLOCK_REALTIME] = "realtime",
	[CLOCK_MONOTONIC] = "monotonic",
	[CLOCK_MONOTONIC_RAW] = "monotonic_raw",
	[CLOCK_REALTIME_COARSE] = "realtime_coarse",
	[CLOCK_MONOTONIC_COARSE] = "monotonic_coarse",
	[CLOCK_BOOTTIME] = "boottime",
	[CLOCK_TAI] = "tai",
};

static int is_static;

/* Prints the line of a read, with the call that is made without the library. */
static void say(const char *call, const char *without, int clock)
{
	printf("%d,%ld,%s,%s\n", getpid(), syscall(SYS_gettid),
	       is_static ? without : call, CLOCKS[clock]);
}

static void read_all_clocks(void)
{
	struct timespec now;

	for (size_t i = 0; i < sizeof(CLOCKS) / sizeof(*CLOCKS); i++) {
		if (!CLOCKS[i])
			continue;
		CHECK(!clock_gettime((clockid_t)i, &now));
		say("clock_gettime", "clock_gettime", (int)i);
	}
}

static void read_by_names(void)
{
	struct timespec now;
	struct timeval micros;
	struct timeb millis;

	CHECK(!gettimeofday(&micros, NULL));
	say("gettimeofday", "gettimeofday", CLOCK_REALTIME);
	CHECK(time(NULL) > 0);
	say("time", "time", CLOCK_REALTIME_COARSE);
	CHECK(timespec_get(&now, TIME_UTC) == TIME_UTC);
	say("timespec_get", "clock_gettime", CLOCK_REALTIME);
	CHECK(!ftime(&millis));
	say("ftime", "clock_gettime", CLOCK_REALTIME);
}

/* The library answers syscall(2). Nobody but tkrun answers the functions of the vDSO. */
static void read_by_the_system(void)
{
	int (*gettime)(clockid_t, struct timespec *) = find_function(
		(const char *)getauxval(AT_SYSINFO_EHDR), "__vdso_clock_gettime");
	struct timespec now;
	struct timeval micros;

	CHECK(!syscall(SYS_clock_gettime, CLOCK_TAI, &now));
	say("clock_gettime", "clock_gettime", CLOCK_TAI);
	CHECK(!syscall(SYS_gettimeofday, &micros, NULL));
	say("gettimeofday", "gettimeofday", CLOCK_REALTIME);
	CHECK(syscall(SYS_time, NULL) > 0);
	say("time", "time", CLOCK_REALTIME_COARSE);
	CHECK(!gettime(CLOCK_BOOTTIME, &now));
	say("clock_gettime", "clock_gettime", CLOCK_BOOTTIME);
}

static void wait_a_little(void)
{
	struct timespec span = { 0, 1000000 };

	CHECK(!nanosleep(&span, NULL));
	say("wait", "wait", CLOCK_MONOTONIC);
}

static void read_all(void)
{
	read_all_clocks();
	read_by_names();
	read_by_the_system();
	wait_a_little();
}

/* A thread's own name isn't that of the program. */
static void *read_all_named(void *unused)
{
	CHECK(!pthread_setname_np(pthread_self(), "other"));
	read_all();
	return unused;
}

static void read_in_threads(void)
{
	pthread_t thread;

	read_all();
	CHECK(!pthread_create(&thread, NULL, read_all_named, NULL));
	CHECK(!pthread_join(thread, NULL));
}

enum { SIGNALS = 12 };

static volatile sig_atomic_t handled;

static void handle(int number)
{
	struct timeval micros;

	(void)number;
	gettimeofday(&micros, NULL);
	handled++;
}

static void read_with_signals(void)
{
	const struct itimerval often = { { 0, 1000 }, { 0, 1000 } }, never = { 0 };
	struct sigaction action = { .sa_handler = handle };
	struct timespec now;

	CHECK(!sigaction(SIGVTALRM, &action, NULL));
	CHECK(!setitimer(ITIMER_VIRTUAL, &often, NULL));
	while (handled < SIGNALS)
		CHECK(!clock_gettime(CLOCK_MONOTONIC, &now));
	CHECK(!setitimer(ITIMER_VIRTUAL, &never, NULL));
	printf("%d\n", handled);
}

int main(int count, char **words)
{
	pid_t child;
	int status;

	if (count > 1 && !strcmp(words[1], "signals")) {
		read_with_signals();
		return faults != 0;
	}
	is_static = count > 1 && !strcmp(words[1], "static");
	read_in_threads();
	fflush(stdout);
	child = fork();
	if (!child) {
		read_in_threads();
		return faults != 0;
	}
	CHECK(waitpid(child, &status, 0) == child && !status);
	return faults != 0;
}
