/* SPDX-License-Identifier: MIT OR Apache-2.0 */
/*
 * watch_lock.c - names a process that is stopped while it has the lock of the clocks. Nobody can
 * take the lock from it: it would go on amid its command.
 */
#define _GNU_SOURCE
#include "tkrun.h"

#include "processes/status.h"

#include <linux/futex.h>
#include <stdio.h>
#include <string.h>

enum {
	CHECK_NANOS = 100000000, /* between two checks of the lock */
	CHECKS = 10, /* which find the same owner stopped, until it is named */
};

/* Returns the thread that has the lock, by the word in which the kernel notes its death, or 0. */
static int32_t find_owner(const struct control *control)
{
	return __atomic_load_n(&control->lock.__data.__lock, __ATOMIC_RELAXED) &
	       FUTEX_TID_MASK;
}

/* Returns whether a thread is stopped, by a signal or a debugger. */
static bool is_stopped(int32_t thread)
{
	char status[STATUS_BYTES];

	return thread && status_read(thread, status) &&
	       strchr("Tt", status_state(status));
}

static void name_owner(int32_t thread)
{
	char path[64], name[64], status[STATUS_BYTES];

	snprintf(path, sizeof(path), "/proc/%d/comm", thread);
	if (!proc_read(path, name, sizeof(name)) ||
	    !status_read(thread, status))
		return;
	name[strcspn(name, "\n")] = 0;
	fprintf(stderr,
		"tkrun: '%s' (process %d) is stopped while it has the lock of the clocks: "
		"all others wait for it\n",
		name, (int)status_number(status, "Tgid", 10));
}

/* What was found of a node's lock. */
struct watched {
	int32_t owner;
	unsigned int checks;
};

static void watch(struct watched *watched, const struct control *control)
{
	int32_t now = find_owner(control);

	if (!is_stopped(now))
		watched->checks = 0;
	else
		watched->checks = (now == watched->owner ? watched->checks : 0) + 1;
	watched->owner = now;
	if (watched->checks == CHECKS)
		name_owner(now);
}

static void *watch_all(void *argument)
{
	static struct watched watched[1 + NODES_MOST];
	const struct run *run = argument;

	for (;;) {
		host_nap(CHECK_NANOS);
		for (size_t i = 0; i < run->count; i++)
			watch(&watched[i], run->nodes[i].machine.control);
	}
	return NULL;
}

void watch_locks(struct run *run)
{
	pthread_t thread;

	if (pthread_create(&thread, NULL, watch_all, run))
		fail(STATUS_FAILED, "cannot start a thread");
}
