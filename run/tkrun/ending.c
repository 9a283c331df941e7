/* SPDX-License-Identifier: MIT OR Apache-2.0 */
/*
 * ending.c - ends all processes of a run, in a thread: the one that drives the clocks may wait for
 * a process that is stopped.
 */
#define _GNU_SOURCE
#include "tkrun.h"
#include "processes/uncovered.h"

#include <errno.h>
#include <stdio.h>

enum {
	GRACE_NANOS = 1000000000, /* between a signal and SIGKILL */
	KILL_NANOS = 10000000,	  /* between two SIGKILLs, for new processes */
	KILLS_MOST = 500,	  /* then some can't be killed */
};

static atomic_bool is_over;
static pthread_t watcher;

bool ending_is_over(void)
{
	return is_over;
}

/* A terminal has sent the signal to the processes, too. */
static void pass_on(struct tree *tree, const siginfo_t *info)
{
	if (info->si_code != SI_KERNEL)
		tree_signal_all(tree, info->si_signo);
}

/* tkrun ends when it has no children any more. */
static void kill_all(struct tree *tree)
{
	size_t count = 0;

	for (int i = 0; i < KILLS_MOST; i++) {
		pthread_testcancel();
		count = tree_signal_all(tree, SIGKILL);
		host_nap(KILL_NANOS);
	}
	if (count)
		fprintf(stderr, "tkrun: %zu %s on and can't be killed\n", count,
			count == 1 ? "process goes" : "processes go");
	is_over = true;
}

/* SIGTERM is there in any case, since tkrun itself sends it. */
static sigset_t end_signals(void)
{
	sigset_t ends;

	sigemptyset(&ends);
	sigaddset(&ends, SIGTERM);
	if (!signals_was_ignored(SIGINT))
		sigaddset(&ends, SIGINT);
	return ends;
}

/* Waits for the next signal, or for the grace. A stop of tkrun interrupts the call, and doesn't
 * change when the grace ends. */
static void wait_grace(const sigset_t *ends)
{
	uint64_t now = host_nanos(CLOCK_MONOTONIC), end = now + GRACE_NANOS;
	struct timespec left = span_of(GRACE_NANOS);

	while (sigtimedwait(ends, NULL, &left) < 0 && errno == EINTR) {
		now = host_nanos(CLOCK_MONOTONIC);
		left = span_of(now < end ? end - now : 0);
	}
}

static void *wait_for_end(void *argument)
{
	static struct tree tree;
	sigset_t ends = end_signals();
	siginfo_t info;

	while (sigwaitinfo(&ends, &info) < 0)
		;
	pass_on(&tree, &info);
	wait_grace(&ends);
	kill_all(&tree);
	return argument;
}

void ending_watch(void)
{
	if (pthread_create(&watcher, NULL, wait_for_end, NULL))
		fail(STATUS_FAILED, "cannot start a thread");
}

/* The signal by which tkrun ends the run itself must not end what follows. */
void ending_watch_no_more(void)
{
	static const struct timespec NONE = { 0, 0 };
	sigset_t ends = end_signals();

	pthread_cancel(watcher);
	pthread_join(watcher, NULL);
	while (uncovered_is_over() && sigtimedwait(&ends, NULL, &NONE) > 0)
		;
}
