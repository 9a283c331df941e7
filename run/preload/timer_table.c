/* SPDX-License-Identifier: MIT OR Apache-2.0 */
/* timer_table.c - the timers of a process, in chunks of memory that never move. */
#define _GNU_SOURCE
#include "timers.h"

#include <fcntl.h>
#include <signal.h>
#include <sys/mman.h>

enum { TIMERS_IN_CHUNK = 256 };

/* A handler may set the timer of alarm, so its entry is always there. */
static struct timer alarm_timer = { .kind = TIMER_ALARM,
				    .own_clock = CLOCK_MONOTONIC };
static struct timer *all_timers = &alarm_timer;
static pthread_mutex_t table_lock = PTHREAD_MUTEX_INITIALIZER;
static sigset_t fork_mask; /* of a thread that forks, which has the lock */

void timers_lock(sigset_t *saved)
{
	sigset_t all;

	sigfillset(&all);
	pthread_sigmask(SIG_SETMASK, &all, saved);
	pthread_mutex_lock(&table_lock);
}

void timers_unlock(const sigset_t *saved)
{
	pthread_mutex_unlock(&table_lock);
	pthread_sigmask(SIG_SETMASK, saved, NULL);
}

struct timer *timers_all(void)
{
	return all_timers;
}

struct timer *timer_find(enum timer_kind kind, intptr_t number)
{
	struct timer *timer = all_timers;

	while (timer && (timer->kind != kind || timer->number != number))
		timer = timer->link;
	return timer;
}

/* Adds a chunk of free entries. Returns false if memory is missing. */
static bool add_chunk(void)
{
	struct timer *chunk =
		mmap(NULL, TIMERS_IN_CHUNK * sizeof(*chunk),
		     PROT_READ | PROT_WRITE, MAP_PRIVATE | MAP_ANONYMOUS, -1, 0);

	if (chunk == MAP_FAILED)
		return false;
	for (int i = 0; i < TIMERS_IN_CHUNK; i++) {
		chunk[i].link = all_timers;
		all_timers = &chunk[i];
	}
	return true;
}

/* Returns whether an entry is free: its file may have been closed. */
static bool is_free(const struct timer *timer, bool checks_files)
{
	if (timer->kind == TIMER_FILE)
		return checks_files && fcntl(timer_file(timer), F_GETFD) < 0;
	return timer->kind == TIMER_NONE;
}

static struct timer *find_free(bool checks_files)
{
	struct timer *timer = all_timers;

	while (timer && !is_free(timer, checks_files))
		timer = timer->link;
	return timer;
}

struct timer *timer_add(enum timer_kind kind, intptr_t number, int clock)
{
	struct timer *timer = find_free(false);

	if (!timer)
		timer = find_free(true);
	if (!timer && add_chunk())
		timer = find_free(false);
	if (!timer)
		return NULL;
	timer_remove(timer);
	timer->kind = kind;
	timer->number = number;
	timer->own_clock = clock;
	return timer;
}

void timer_remove(struct timer *timer)
{
	waiter_leave(&timer->ticket);
	*timer = (struct timer){ .link = timer->link };
}

/* A thread that forks has the lock, so that a child finds a whole table, and nobody has
 * the lock of the child. Its handlers would wait for the lock forever. */
static void before_fork(void)
{
	sigset_t mask;

	timers_lock(&mask);
	fork_mask = mask;
}

static void after_fork(void)
{
	sigset_t mask = fork_mask;

	timers_unlock(&mask);
}

/* Only timers that are files live on in a child. */
static void in_child(void)
{
	waiters_forked();
	for (struct timer *timer = all_timers; timer; timer = timer->link) {
		waiter_leave(&timer->ticket);
		if (timer->kind == TIMER_ALARM)
			timer->is_armed = false;
		else if (timer->kind != TIMER_FILE)
			timer_remove(timer);
	}
	follow_no_more();
	after_fork();
}

/* What pthread_atfork calls. Only glibc has it, and the library must be loaded by others too. */
extern int __register_atfork(void (*)(void), void (*)(void), void (*)(void),
			     void *) __attribute__((weak));
extern void *__dso_handle __attribute__((visibility("hidden")));

void timers_hook_forks(void)
{
	__register_atfork(before_fork, after_fork, in_child, &__dso_handle);
}
