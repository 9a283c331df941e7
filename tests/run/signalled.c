/* SPDX-License-Identifier: MIT OR Apache-2.0 */
/*
 * Sends a process a signal at each system call that a call makes, and at equally distant instructions
 * of it. Prints each place at which the process sees something wrong.
 *
 *     signalled COUNT [set]
 *
 * A child makes each call once to find what it needs, and once while it is traced. COUNT signals are
 * sent at instructions, unless the call waits or sets a timer. The handler reads the clocks; with `set`, it moves REALTIME on by an hour
 * first. The call must succeed, times must not go back, the handler must run once, and afterwards the
 * same signals must be blocked as before.
 */
#define _GNU_SOURCE
#include "signalled.h"

#include <limits.h>
#include <stdio.h>
#include <stdlib.h>
#include <string.h>
#include <sys/ptrace.h>
#include <sys/syscall.h>
#include <sys/timex.h>
#include <sys/wait.h>
#include <unistd.h>

enum {
	HOUR = 3600,
	SET_BYTES = 8,
	BAD = 1,
	SHORT_COUNT = 9, /* of calls that get signals at instructions, too */
};

static bool does_set;
static struct timespec handled[CLOCK_TAI + 1]; /* what the handler has read */

static bool is_ordered(struct timespec a, struct timespec b)
{
	return a.tv_sec < b.tv_sec || (a.tv_sec == b.tv_sec && a.tv_nsec <= b.tv_nsec);
}

static bool is_within(struct timespec first, struct timespec time, struct timespec last)
{
	return is_ordered(first, time) && is_ordered(time, last);
}

static unsigned long blocked(void)
{
	unsigned long set = 0;

	syscall(SYS_rt_sigprocmask, SIG_BLOCK, NULL, &set, SET_BYTES);
	return set;
}

static void handle(int number)
{
	struct timespec time = now(CLOCK_REALTIME);
	int error = errno;

	(void)number;
	time.tv_sec += HOUR;
	if (does_set && clock_settime(CLOCK_REALTIME, &time))
		_exit(BAD);
	for (clockid_t clock = 0; clock <= CLOCK_TAI; clock++)
		handled[clock] = now(clock);
	taken++;
	errno = error;
}

/* A read of a clock is between the reads before and after it, and the handler's isn't after a later
 * one. REALTIME is at most an hour later if the handler has set it. */
static bool read_clock(clockid_t clock)
{
	struct timespec first = now(clock), time = now(clock), last = now(clock);

	return is_within(first, time, last) && last.tv_sec - first.tv_sec <= 2 * HOUR &&
	       (!taken || is_ordered(handled[clock], now(clock)));
}

static bool read_real(void)
{
	return read_clock(CLOCK_REALTIME);
}

static bool read_monotonic(void)
{
	return read_clock(CLOCK_MONOTONIC);
}

static bool read_coarse(void)
{
	return read_clock(CLOCK_REALTIME_COARSE);
}

static bool read_micros(void)
{
	struct timespec first = now(CLOCK_REALTIME), last;
	struct timeval micros;
	bool is_well = !gettimeofday(&micros, NULL);

	last = now(CLOCK_REALTIME);
	first.tv_nsec -= first.tv_nsec % 1000;
	return is_well && is_within(first, (struct timespec){ micros.tv_sec, micros.tv_usec * 1000 },
				    last);
}

static bool set_real(void)
{
	struct timespec time = now(CLOCK_REALTIME);

	return !clock_settime(CLOCK_REALTIME, &time);
}

static bool set_micros(void)
{
	struct timespec time = now(CLOCK_REALTIME);
	struct timeval micros = { time.tv_sec, time.tv_nsec / 1000 };

	return !settimeofday(&micros, NULL);
}

static bool read_state(void)
{
	struct timex tx = { 0 };

	return adjtimex(&tx) >= 0 && tx.tick == 10000;
}

static bool steer(void)
{
	struct timex tx = { .modes = ADJ_TAI, .constant = 7 };

	return adjtimex(&tx) >= 0 && tx.tai == 7;
}

static bool slew(void)
{
	struct timeval span = { 0, 0 }, rest;

	return !adjtime(&span, &rest) && !rest.tv_sec && !rest.tv_usec;
}

static const struct {
	const char *name;
	bool (*make)(void);
} CALLS[] = {
	{ "REALTIME", read_real },	   { "MONOTONIC", read_monotonic },
	{ "REALTIME_COARSE", read_coarse }, { "gettimeofday", read_micros },
	{ "clock_settime", set_real },	   { "settimeofday", set_micros },
	{ "a read of adjtimex", read_state }, { "adjtimex", steer },
	{ "adjtime", slew },
	{ "nanosleep", sleep_once },
	{ "clock_nanosleep", sleep_until },
	{ "poll", wait_files },
	{ "select", select_files },
	{ "sigtimedwait", wait_signal },
	{ "sem_timedwait", wait_semaphore },
	{ "pthread_cond_timedwait", wait_condition },
	{ "timerfd_settime", set_file },
	{ "timer_settime", set_timer },
	{ "alarm", set_alarm },
};

/* Makes a call twice, the second time after a stop. */
static void make_traced(size_t call)
{
	struct sigaction action = { .sa_handler = handle };
	unsigned long set = blocked();

	sigaction(SIGUSR1, &action, NULL);
	if (ptrace(PTRACE_TRACEME, 0, 0, 0) || !CALLS[call].make())
		_exit(BAD);
	raise(SIGSTOP);
	errno = ERRNO;
	if (!CALLS[call].make() || errno != ERRNO || blocked() != set)
		_exit(BAD);
	_exit(taken <= 1 ? 0 : BAD);
}

/* Lets a child make `most` steps after its stop, then sends it the signal. Returns how many it has
 * made, or -1 if it has ended badly. */
static long trace(size_t call, enum __ptrace_request step, long most)
{
	pid_t child = fork();
	int status = 0, number;
	long steps = 0;

	if (!child)
		make_traced(call);
	waitpid(child, &status, 0);
	for (; WIFSTOPPED(status) && steps < most; steps++) {
		if (ptrace(step, child, 0, 0))
			return -1;
		waitpid(child, &status, 0);
	}
	if (WIFSTOPPED(status))
		kill(child, SIGUSR1);
	while (WIFSTOPPED(status)) {
		number = WSTOPSIG(status) == SIGUSR1 ? SIGUSR1 : 0;
		ptrace(PTRACE_CONT, child, 0, number);
		waitpid(child, &status, 0);
	}
	return status ? -1 : steps;
}

/* Sends the signal after `most` different numbers of steps. Returns the faults. */
static int try_all(size_t call, enum __ptrace_request step, long most)
{
	long all = trace(call, step, LONG_MAX), faults = 0;

	if (all <= 0) {
		printf("%s: nothing was traced\n", CALLS[call].name);
		return 1;
	}
	if (most > all)
		most = all;
	for (long i = 0; i < most; i++) {
		long at = i * all / most;

		if (trace(call, step, at) >= 0)
			continue;
		printf("%s: wrong with a signal after %ld of %ld %s\n", CALLS[call].name, at, all,
		       step == PTRACE_SYSCALL ? "stops of system calls" : "instructions");
		faults++;
	}
	return (int)faults;
}

int main(int count, char **words)
{
	long most = count > 1 ? atol(words[1]) : 10;
	int faults = 0;

	does_set = count > 2 && !strcmp(words[2], "set");
	for (size_t call = 0; call < sizeof(CALLS) / sizeof(*CALLS); call++)
		faults += try_all(call, PTRACE_SYSCALL, LONG_MAX) +
			  (call < SHORT_COUNT ? try_all(call, PTRACE_SINGLESTEP, most) : 0);
	return faults > 0;
}
