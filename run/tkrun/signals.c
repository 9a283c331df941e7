/* SPDX-License-Identifier: MIT OR Apache-2.0 */
/* signals.c - blocks, ignores and passes on signals. */
#define _GNU_SOURCE
#include "signals.h"

#include <errno.h>
#include <stdbool.h>
#include <stddef.h>
#include <stdlib.h>

enum { ENDS_COUNT = 4, CHANGED_COUNT = 6 };

/* The first ENDS_COUNT end tkrun. Of all of these it changes what they do. */
static const int CHANGED[CHANGED_COUNT] = { SIGTERM, SIGHUP,  SIGINT,
					    SIGQUIT, SIGPIPE, SIGXFSZ };

/* What was there when tkrun was started. */
static struct sigaction actions[CHANGED_COUNT];
static sigset_t mask;

/* The process that gets the signals, and the last one that came. */
static volatile sig_atomic_t passed_to, passed;

static sigset_t blocked_signals(void)
{
	sigset_t set;

	sigemptyset(&set);
	sigaddset(&set, SIGCHLD);
	for (size_t i = 0; i < ENDS_COUNT; i++)
		sigaddset(&set, CHANGED[i]);
	return set;
}

void signals_block(sigset_t *waited)
{
	sigset_t blocked = blocked_signals();

	for (size_t i = 0; i < CHANGED_COUNT; i++)
		sigaction(CHANGED[i], NULL, &actions[i]);
	/* a record at the limit of a file's size ends, and the program goes on */
	signal(SIGXFSZ, SIG_IGN);
	sigemptyset(waited);
	sigaddset(waited, SIGCHLD);
	sigaddset(waited, SIGHUP);
	sigprocmask(SIG_BLOCK, &blocked, &mask);
}

static bool was_ignored(size_t index)
{
	return actions[index].sa_handler == SIG_IGN;
}

bool signals_was_ignored(int number)
{
	for (size_t i = 0; i < CHANGED_COUNT; i++) {
		if (CHANGED[i] == number)
			return was_ignored(i);
	}
	return false;
}

/* A blocked signal is pending also if it is ignored. */
void signals_end_early(void)
{
	sigset_t pending;

	sigpending(&pending);
	for (size_t i = 0; i < ENDS_COUNT; i++) {
		if (sigismember(&pending, CHANGED[i]) && !was_ignored(i))
			exit(128 + CHANGED[i]);
	}
}

/* SIGINT isn't ignored: one that is pending would be lost, and the run would go on. */
void signals_ignore(void)
{
	signal(SIGQUIT, SIG_IGN);
	signal(SIGPIPE, SIG_IGN); /* nobody reads the summary */
}

void signals_restore(void)
{
	for (size_t i = 0; i < CHANGED_COUNT; i++)
		sigaction(CHANGED[i], &actions[i], NULL);
	sigprocmask(SIG_SETMASK, &mask, NULL);
}

static void pass(int number)
{
	int error = errno;

	passed = number;
	kill(passed_to, number);
	errno = error;
}

void signals_pass_to(pid_t process)
{
	struct sigaction action = { .sa_handler = pass, .sa_flags = SA_RESTART };

	passed_to = process;
	/* drops one that came before */
	signal(SIGQUIT, SIG_IGN);
	for (size_t i = 0; i < ENDS_COUNT; i++) {
		if (!was_ignored(i))
			sigaction(CHANGED[i], &action, NULL);
	}
	sigprocmask(SIG_SETMASK, &mask, NULL);
}

void signals_pass_no_more(void)
{
	sigset_t blocked = blocked_signals();

	sigprocmask(SIG_BLOCK, &blocked, NULL);
}

int signals_passed(void)
{
	return passed;
}
