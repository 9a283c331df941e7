/* SPDX-License-Identifier: MIT OR Apache-2.0 */
/* timed.h - waits of two seconds, and how long each of them was. */
#ifndef TIMED_H
#define TIMED_H

#include <fcntl.h>
#include <mqueue.h>
#include <stdbool.h>
#include <stddef.h>
#include <stdint.h>
#include <stdio.h>
#include <string.h>
#include <time.h>
#include <unistd.h>

static const struct timespec SPAN = { 2, 0 };

struct timed_wait {
	const char *name;
	bool (*wait)(void); /* returns whether it ended by its time */
};

static inline struct timespec now(clockid_t clock)
{
	struct timespec time;

	clock_gettime(clock, &time);
	return time;
}

/* Two seconds from now. */
static inline struct timespec until(clockid_t clock)
{
	struct timespec time = now(clock);

	time.tv_sec += SPAN.tv_sec;
	return time;
}

static inline int64_t nanos(struct timespec time)
{
	return time.tv_sec * INT64_C(1000000000) + time.tv_nsec;
}

/* Opens a queue that has a name only meanwhile, for one message of a byte. */
static inline mqd_t open_queue(void)
{
	struct mq_attr attributes = { .mq_maxmsg = 1, .mq_msgsize = 1 };
	char name[32];
	mqd_t queue;

	snprintf(name, sizeof(name), "/tkrun.%d", getpid());
	queue = mq_open(name, O_RDWR | O_CREAT, 0600, &attributes);
	mq_unlink(name);
	return queue;
}

/*
 * Makes all waits, or the one with a name, and prints for each its name and by
 * how many ns MONOTONIC has moved on. A wait that ended in another way than by
 * its time prints its name and "failed".
 */
static inline void make_waits(const struct timed_wait *waits, size_t count,
			      const char *name)
{
	for (size_t i = 0; i < count; i++) {
		int64_t before = nanos(now(CLOCK_MONOTONIC));

		if (name && strcmp(name, waits[i].name))
			continue;
		if (waits[i].wait())
			printf("%s %lld\n", waits[i].name,
			       (long long)(nanos(now(CLOCK_MONOTONIC)) -
					   before));
		else
			printf("%s failed\n", waits[i].name);
		fflush(stdout);
	}
}

#endif
