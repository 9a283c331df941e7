/* SPDX-License-Identifier: MIT OR Apache-2.0 */
/* spans.h - waits for a span, each in its own process. */
#ifndef SPANS_H
#define SPANS_H

#include "timed.h"

#include <errno.h>
#include <signal.h>
#include <stdlib.h>
#include <sys/resource.h>
#include <sys/wait.h>

enum { MILLION = 1000000, BILLION = 1000000000, LINE_MOST = 128, WAITS_MOST = 64 };

/* Waits for a span of ns. Returns the error that ended the wait, or 0 if its time did, and
 * stores the ns that the call states as left. */
struct span_wait {
	const char *name;
	int (*wait)(int64_t span, int64_t *left);
};

static inline struct timespec span_of(int64_t span)
{
	return (struct timespec){ span / BILLION, span % BILLION };
}

/* The time of a clock a span from now. */
static inline struct timespec after(clockid_t clock, int64_t span)
{
	return span_of(nanos(now(clock)) + span);
}

/* Returns errno, and 0 if a wait has ended by its time: with this error. */
static inline int error_of(int result, int at_time)
{
	if (!result && !at_time)
		return 0;
	return result < 0 && errno != at_time ? errno
	       : result < 0		      ? 0
					      : EPROTO;
}

/* A file that is never ready. */
static inline int silent_file(void)
{
	int ends[2];

	if (pipe(ends))
		perror("spans");
	return ends[0];
}

/* The blocked signals of this thread: those that the C library keeps for itself too. */
static inline uint64_t blocked(void)
{
	sigset_t set;
	uint64_t bits;

	sigprocmask(SIG_SETMASK, NULL, &set);
	memcpy(&bits, &set, sizeof(bits));
	return bits;
}

static uint64_t blocked_before; /* a wait */

/* Blocks all signals but one, and leaves it unblocked. */
static inline void block_except(int number)
{
	sigset_t all;

	sigfillset(&all);
	if (number)
		sigdelset(&all, number);
	sigprocmask(SIG_SETMASK, &all, NULL);
	blocked_before = blocked();
}

static volatile sig_atomic_t signals;

static inline void note(int number)
{
	(void)number;
	signals++;
}

/* How often this thread has gone to sleep. */
static inline long sleep_count(void)
{
	struct rusage usage;

	getrusage(RUSAGE_THREAD, &usage);
	return usage.ru_nvcsw;
}

/* Waits, without a sleep, until a process sleeps. */
static inline void await_sleep(pid_t process)
{
	char path[32], state = 0;
	FILE *file;

	snprintf(path, sizeof(path), "/proc/%d/stat", process);
	while (state != 'S') {
		file = fopen(path, "re");
		if (!file || fscanf(file, "%*d (%*[^)]) %c", &state) != 1)
			perror("spans");
		if (file)
			fclose(file);
	}
}

/* Sends this process a signal from another one, after a span that begins when it sleeps. */
static inline void send_after(int64_t span)
{
	struct timespec time = span_of(span);
	pid_t own = getpid();

	if (fork())
		return;
	await_sleep(own);
	nanosleep(&time, NULL);
	kill(own, SIGUSR1);
	_exit(0);
}

/* Makes a wait, and returns a line that says what became of it. */
static inline void make_span(const struct span_wait *wait, int64_t span,
			     int64_t signal_after, char line[LINE_MOST])
{
	struct sigaction action = { .sa_handler = note };
	int64_t before, left = 0;
	long slept;
	int error;

	sigaction(SIGUSR1, &action, NULL);
	if (signal_after)
		send_after(signal_after);
	before = nanos(now(CLOCK_MONOTONIC));
	blocked_before = blocked();
	slept = sleep_count();
	error = wait->wait(span, &left);
	snprintf(line, LINE_MOST, "%s %s %lld %lld %d %s %ld\n", wait->name,
		 error ? strerrorname_np(error) : "0",
		 (long long)(nanos(now(CLOCK_MONOTONIC)) - before),
		 (long long)left, signals,
		 blocked() == blocked_before ? "same" : "changed",
		 sleep_count() - slept);
}

static inline int start_span(const struct span_wait *wait, int64_t span,
			     int64_t signal_after)
{
	char line[LINE_MOST] = { 0 };
	int ends[2];

	if (pipe(ends))
		perror("spans");
	if (!fork()) {
		make_span(wait, span, signal_after, line);
		_exit(write(ends[1], line, LINE_MOST) != LINE_MOST);
	}
	close(ends[1]);
	return ends[0];
}

/* Makes all waits at once, and prints their lines in the order of the list. */
static inline int make_spans(const struct span_wait *waits, size_t count,
			     int word_count, char **words)
{
	int64_t span = atoll(words[1]) * MILLION;
	int64_t signal_after = word_count > 3 ? atoll(words[3]) * MILLION : 0;
	char line[LINE_MOST];
	int files[WAITS_MOST];

	for (size_t i = 0; i < count; i++)
		files[i] = start_span(&waits[i], span, signal_after);
	for (size_t i = 0; i < count; i++) {
		if (read(files[i], line, LINE_MOST) != LINE_MOST)
			perror("spans");
		fputs(line, stdout);
	}
	while (wait(NULL) > 0)
		;
	return 0;
}

#endif
