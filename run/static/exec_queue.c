/* SPDX-License-Identifier: MIT OR Apache-2.0 */
/*
 * exec_queue.c - the programs that wait for being executed. The thread that answers adds them, and
 * the one that waits for their stops takes them. The first never waits for the other, which may
 * need an answer.
 */
#define _GNU_SOURCE
#include "static.h"

#include <errno.h>
#include <fcntl.h>
#include <pthread.h>
#include <signal.h>
#include <stdlib.h>
#include <unistd.h>

struct execution {
	struct execution *next;
	struct seccomp_notif ask;
};

static struct execution *first, **last = &first;
static pthread_mutex_t lock = PTHREAD_MUTEX_INITIALIZER;
static int wakes[2]; /* a pipe that has a byte if there may be programs */

int execs_open(void)
{
	if (pipe2(wakes, O_CLOEXEC | O_NONBLOCK))
		return -1;
	return wakes[0];
}

/* If the pipe is full, the byte isn't needed. */
void execs_add(int listener, const struct seccomp_notif *ask)
{
	struct execution *added = malloc(sizeof(*added));

	if (!added) {
		filter_refuse(listener, ask->id, ENOMEM);
		return;
	}
	*added = (struct execution){ NULL, *ask };
	pthread_mutex_lock(&lock);
	*last = added;
	last = &added->next;
	pthread_mutex_unlock(&lock);
	(void)!write(wakes[1], "", 1);
	kill(getpid(), SIGCHLD);
}

bool execs_take(struct seccomp_notif *ask)
{
	struct execution *taken;

	pthread_mutex_lock(&lock);
	taken = first;
	if (taken) {
		*ask = taken->ask;
		first = taken->next;
		if (!first)
			last = &first;
	}
	pthread_mutex_unlock(&lock);
	free(taken);
	return taken;
}

void execs_wait_no_more(void)
{
	char bytes[256];

	while (read(wakes[0], bytes, sizeof(bytes)) == sizeof(bytes))
		;
}
