/* SPDX-License-Identifier: MIT OR Apache-2.0 */
/* follow.c - the thread that follows the clocks for the timers of its process. */
#define _GNU_SOURCE
#include "timers.h"

#include <dirent.h>
#include <fcntl.h>
#include <stdio.h>
#include <stdlib.h>
#include <string.h>
#include <sys/syscall.h>
#include <unistd.h>

enum {
	FOLLOW_NANOS = 100000000, /* between two looks for other threads */
	LISTED_SEC = 1000,	  /* the same if tkrun says when there are none */
	STATE_MOST = 512,
};

static bool is_following;

/* The thread's entry in the list of those that wait, with a counter of sleeps. */
static struct ticket entry;
static atomic_bool is_listed;

/* Returns whether a thread has ended. The main thread's entry stays. */
static bool has_ended(const char *thread)
{
	char path[64], text[STATE_MOST], *name_end;
	ssize_t length;
	int file;

	snprintf(path, sizeof(path), "/proc/self/task/%.20s/stat", thread);
	file = open(path, O_RDONLY | O_CLOEXEC);
	if (file < 0)
		return true;
	length = read(file, text, sizeof(text) - 1);
	close(file);
	text[length < 0 ? 0 : length] = 0;
	name_end = strrchr(text, ')');
	return name_end && strchr("ZX", name_end[2]);
}

/* Returns whether no other thread of this process lives. */
static bool is_alone(void)
{
	long own = host_call(SYS_gettid, 0, 0, 0, 0, 0, 0);
	DIR *threads = opendir("/proc/self/task");
	struct dirent *entry;
	bool is_alone = threads;

	while (is_alone && (entry = readdir(threads)))
		is_alone = *entry->d_name == '.' ||
			   atol(entry->d_name) == own ||
			   has_ended(entry->d_name);
	if (threads)
		closedir(threads);
	return is_alone;
}

static void follow_all(struct machine *m, bool has_changed)
{
	sigset_t saved;

	timers_lock(&saved);
	for (struct timer *timer = timers_all(); timer; timer = timer->link) {
		timer->is_stale |= has_changed;
		timer_follow(m, timer);
	}
	timers_unlock(&saved);
}

/* The C library ends a process when its last thread ends, which may be another one than the main
 * thread (pthread_exit). This thread would keep the process alive, so it ends it then. */
static void end_if_alone(void)
{
	if (!is_alone())
		return;
	waiter_leave(&entry); /* what the process does at its end takes time */
	exit(0);
}

/* Lists this thread if it can. Returns the futex that wakes it. */
static _Atomic uint32_t *list_follower(struct machine *m)
{
	entry = waiter_enter_follower(m);
	atomic_store(&is_listed, entry.waiter != NULL);
	return entry.waiter ? &entry.waiter->changes : &m->shared->generation;
}

static void *follow(void *unused)
{
	struct machine *m = machine();
	_Atomic uint32_t *futex = list_follower(m);
	uint64_t span = entry.waiter ? LISTED_SEC * (uint64_t)NANOS : FOLLOW_NANOS;
	uint32_t seen = atomic_load(futex), now;
	bool has_changed = true;
	int error;

	(void)unused;
	for (;;) {
		follow_all(m, has_changed);
		error = host_futex_wait(futex, seen,
					host_nanos(CLOCK_MONOTONIC) + span);
		if (error == ETIMEDOUT || waiter_is_alone(&entry))
			end_if_alone();
		now = atomic_load(futex);
		has_changed = now != seen;
		seen = now;
	}
	return NULL;
}

/* A thread that isn't listed yet lists all times when it is. */
void follow_wake(struct machine *m)
{
	if (atomic_load(&is_listed))
		waiter_wake(m->control, entry.waiter, entry.owner);
	else
		machine_wake(m);
}

bool follow_start(void)
{
	pthread_attr_t attributes;
	pthread_t thread;

	if (is_following)
		return true;
	pthread_attr_init(&attributes);
	pthread_attr_setdetachstate(&attributes, PTHREAD_CREATE_DETACHED);
	is_following = !pthread_create(&thread, &attributes, follow, NULL);
	pthread_attr_destroy(&attributes);
	return is_following;
}

void follow_no_more(void)
{
	is_following = false;
	atomic_store(&is_listed, false);
}
