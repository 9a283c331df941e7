/* SPDX-License-Identifier: MIT OR Apache-2.0 */
/*
 * sleepers.c - the sleeps of programs without the library: each is a call that is answered when
 * its time comes.
 */
#define _GNU_SOURCE
#include "asker.h"
#include "static.h"

#include "processes/status.h"

#include <errno.h>
#include <stdlib.h>
#include <string.h>
#include <sys/ioctl.h>

enum {
	CHECK_NANOS = 10000000, /* between two checks: a step may end a sleep */
	CHECK_SLEEPS_NANOS = 1000000, /* the same with a counter of sleeps */
	/* between two checks of signals: at least, and for each sleep */
	SIGNALS_NANOS = 10000000,
	SIGNALS_NANOS_EACH = 300000,
	RESTART_CALL = 516, /* ERESTART_RESTARTBLOCK of the kernel's errno.h */
};

struct sleeper {
	struct sleeper *next;
	struct sleep sleep;
	struct ticket ticket;
	bool has_signal; /* of the process, when it was checked */
	bool is_stopped; /* its call has ended, and may go on after a stop */
};

static struct sleeper *sleepers;
static pthread_mutex_t sleepers_lock = PTHREAD_MUTEX_INITIALIZER;
static _Atomic uint32_t changes;
static int listener;

void sleepers_wake(void)
{
	atomic_fetch_add(&changes, 1);
	host_futex_wake(&changes);
}

/* Removes the sleeper to which a link points. */
static void remove_sleeper(struct sleeper **link)
{
	struct sleeper *sleeper = *link;

	*link = sleeper->next;
	waiter_leave(&sleeper->ticket);
	free(sleeper);
}

/* Returns the link to a thread's sleeper that was stopped, or NULL. */
static struct sleeper **find_stopped(uint32_t thread)
{
	struct sleeper **link = &sleepers;

	while (*link && (!(*link)->is_stopped ||
			 (*link)->sleep.ask.pid != thread))
		link = &(*link)->next;
	return *link ? link : NULL;
}

/* Returns whether two calls were made by the same instruction, with the same
 * arguments. */
static bool is_same_call(const struct seccomp_data *one,
			 const struct seccomp_data *other)
{
	return one->instruction_pointer == other->instruction_pointer &&
	       !memcmp(one->args, other->args, sizeof(one->args));
}

/* The kernel restarts a call by another number, in its place. A handler may have
 * run after the stop: the sleep was over then, and this is another call. */
bool sleepers_resume(const struct seccomp_notif *ask)
{
	struct sleeper **link;
	bool is_resumed;

	pthread_mutex_lock(&sleepers_lock);
	link = find_stopped(ask->pid);
	is_resumed =
		link && is_same_call(&(*link)->sleep.ask.data, &ask->data);
	if (is_resumed) {
		(*link)->sleep.ask.id = ask->id;
		(*link)->is_stopped = false;
	} else if (link) {
		remove_sleeper(link);
	}
	pthread_mutex_unlock(&sleepers_lock);
	if (is_resumed)
		sleepers_wake();
	return is_resumed;
}

bool sleepers_has(int32_t thread, bool is_present)
{
	const struct sleeper *sleeper;
	bool is_found;

	pthread_mutex_lock(&sleepers_lock);
	sleeper = sleepers;
	while (sleeper && (int32_t)sleeper->sleep.ask.pid != thread)
		sleeper = sleeper->next;
	is_found = sleeper &&
		   (!is_present ||
		    (!sleeper->is_stopped &&
		     filter_has_call(listener, sleeper->sleep.ask.id)));
	pthread_mutex_unlock(&sleepers_lock);
	return is_found;
}

bool sleepers_have(const struct waiter *waiter, uint64_t owner)
{
	struct sleeper *sleeper;

	pthread_mutex_lock(&sleepers_lock);
	sleeper = sleepers;
	while (sleeper && (sleeper->ticket.waiter != waiter ||
			   sleeper->ticket.owner != owner))
		sleeper = sleeper->next;
	pthread_mutex_unlock(&sleepers_lock);
	return sleeper;
}

bool sleepers_add(const struct sleep *sleep)
{
	struct sleeper *sleeper = calloc(1, sizeof(*sleeper)), **stopped;

	if (!sleeper)
		return false;
	sleeper->sleep = *sleep;
	pthread_mutex_lock(&sleepers_lock);
	stopped = find_stopped(sleep->ask.pid);
	if (stopped)
		remove_sleeper(stopped);
	if (sleep->machine->shared->kind == COUNTER_SLEEPS)
		sleeper->ticket = waiter_enter_for(
			sleep->machine, (int32_t)sleep->ask.pid, (uint32_t)sleep->clock,
			sleep->end.tv_sec, (uint32_t)sleep->end.tv_nsec);
	sleeper->next = sleepers;
	sleepers = sleeper;
	pthread_mutex_unlock(&sleepers_lock);
	sleepers_wake();
	return true;
}

/* Returns false if the call has ended already. */
static bool reply(const struct sleeper *sleeper, int error)
{
	struct seccomp_notif_resp reply = { .id = sleeper->sleep.ask.id,
					    .error = -error };

	return !ioctl(listener, SECCOMP_IOCTL_NOTIF_SEND, &reply);
}

/* Stores what is left of a span, as the kernel does at each interruption. Returns
 * 0 or an errno. */
static int store_rest(const struct sleep *sleep)
{
	struct timespec rest;

	if (!sleep->rest)
		return 0;
	machine_turn_to(sleep->machine);
	asker_reads(sleep->machine, &sleep->ask);
	rest = machine_until(sleep->machine, sleep->clock, &sleep->end);
	return answer_put(&sleep->ask, sleep->rest, &rest, sizeof(rest));
}

/* Returns what signals do to a sleeper. One of the process may be another
 * thread's, unless the process still has it at the next check; and another thread
 * may have taken the one that stops them all. */
static enum interruption interruption_of(struct sleeper *sleeper)
{
	int thread = (int)sleeper->sleep.ask.pid, process;
	enum interruption own, both;
	char status[STATUS_BYTES];
	bool had_signal = sleeper->has_signal;

	if (!status_read(thread, status))
		return NOT_INTERRUPTED;
	own = status_interruption(status, false);
	both = status_interruption(status, true);
	sleeper->has_signal = both != NOT_INTERRUPTED;
	if (status_number(status, "Threads", 10) == 1 || own ||
	    (both && had_signal))
		return both;
	process = (int)status_number(status, "Tgid", 10);
	if (process != thread && status_read(process, status) &&
	    status_state(status) == 'T')
		return STOPPED;
	return NOT_INTERRUPTED;
}

/* Ends the call of a sleeper if a signal interrupts it. A stopped one stays, to
 * be resumed: the kernel restarts its call, or makes EINTR of the answer if a
 * handler runs after the stop. Returns whether its sleep is over. */
static bool interrupt(struct sleeper *sleeper)
{
	enum interruption interruption = interruption_of(sleeper);
	int error;

	if (interruption == NOT_INTERRUPTED)
		return false;
	error = store_rest(&sleeper->sleep);
	if (interruption == STOPPED && !error) {
		sleeper->is_stopped = reply(sleeper, RESTART_CALL);
		return !sleeper->is_stopped;
	}
	reply(sleeper, error ? error : EINTR);
	return true;
}

static bool is_gone(const struct sleeper *sleeper)
{
	char status[STATUS_BYTES];

	if (sleeper->is_stopped)
		return !status_read((int)sleeper->sleep.ask.pid, status);
	return !filter_has_call(listener, sleeper->sleep.ask.id);
}

/* Returns whether a sleep is over: its time has come, or a signal ended it. */
static bool is_over(struct sleeper *sleeper, bool checks_signals,
		    uint64_t *left)
{
	const struct sleep *sleep = &sleeper->sleep;

	*left = machine_left(sleep->machine, (uint32_t)sleep->clock,
			     sleep->end.tv_sec, (uint32_t)sleep->end.tv_nsec);
	if (sleeper->is_stopped && !*left) {
		waiter_leave(&sleeper->ticket);
		*left = NEVER;
	} else if (!*left) {
		reply(sleeper, 0);
		return true;
	}
	if (is_gone(sleeper))
		return true;
	return checks_signals && !sleeper->is_stopped && interrupt(sleeper);
}

/* Ends the sleeps that are over. Returns the ns until the next check. */
static uint64_t end_due(void)
{
	uint64_t least = node_machine(0)->shared->kind == COUNTER_SLEEPS
				 ? CHECK_SLEEPS_NANOS
				 : CHECK_NANOS;
	static uint64_t signals_next;
	uint64_t left, now = host_nanos(CLOCK_MONOTONIC), count = 0;
	bool checks_signals = now >= signals_next;
	struct sleeper **link = &sleepers;

	pthread_mutex_lock(&sleepers_lock);
	while (*link) {
		if (is_over(*link, checks_signals, &left)) {
			remove_sleeper(link);
			continue;
		}
		least = left < least ? left : least;
		link = &(*link)->next;
		count++;
	}
	if (!sleepers)
		least = NANOS;
	pthread_mutex_unlock(&sleepers_lock);
	if (checks_signals)
		signals_next = now + SIGNALS_NANOS + count * SIGNALS_NANOS_EACH;
	return least;
}

static void *end_sleeps(void *unused)
{
	uint32_t seen;

	for (;;) {
		seen = atomic_load(&changes);
		host_futex_wait(&changes, seen,
				host_nanos(CLOCK_MONOTONIC) + end_due());
	}
	return unused;
}

bool sleepers_start(int file)
{
	pthread_t thread;

	listener = file;
	return !pthread_create(&thread, NULL, end_sleeps, NULL);
}
