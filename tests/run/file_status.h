/* SPDX-License-Identifier: MIT OR Apache-2.0 */
/* file_status.h - what the programs share that look at times of files, with --file-times. */
#ifndef FILE_STATUS_H
#define FILE_STATUS_H

#include "clocks/host.h"
#include "faults.h"

#include <fcntl.h>
#include <sched.h>
#include <stdbool.h>
#include <stdlib.h>
#include <sys/stat.h>
#include <sys/syscall.h>
#include <unistd.h>

/* A counter that runs may have gone on since a file was stamped, but not back. */
static const long long AFTER_NANOS = 3600 * (long long)NANOS, BEFORE_NANOS = NANOS / 100;

static bool is_still; /* the counter is one of sleeps */

static inline struct timespec now(void)
{
	struct timespec time;

	clock_gettime(CLOCK_REALTIME, &time);
	return time;
}

static inline bool is_same(struct timespec one, struct timespec other)
{
	return one.tv_sec == other.tv_sec && one.tv_nsec == other.tv_nsec;
}

/* Returns whether a file was stamped now. */
static inline bool is_now(struct timespec time)
{
	struct timespec read = now();
	long long apart = (read.tv_sec - time.tv_sec) * (long long)NANOS + read.tv_nsec -
			  time.tv_nsec;

	return is_still ? !apart : apart >= -BEFORE_NANOS && apart < AFTER_NANOS;
}

static inline struct stat of(const char *path)
{
	struct stat status = { 0 };

	CHECK(!stat(path, &status));
	return status;
}

static inline void put(const char *path, const char *text)
{
	int file = open(path, O_WRONLY | O_CREAT | O_APPEND, 0600);

	CHECK(write(file, text, strlen(text)) == (ssize_t)strlen(text));
	close(file);
}

/* Returns the time of the host's last tick. */
static inline struct timespec host_tick(void)
{
	struct timespec time;

	host_call(SYS_clock_gettime, CLOCK_REALTIME_COARSE, (long)&time, 0, 0, 0, HOST_CALL);
	return time;
}

/* Sleeps, with fractions of a second, and until the host's clock has ticked: files that are changed
 * before and after that have other times. A tick may be late on a busy machine. */
static inline void pass(long sec)
{
	const struct timespec span = { is_still ? sec : 0, 112345678 };
	struct timespec before = host_tick();

	do
		nanosleep(&span, NULL);
	while (!is_still && is_same(host_tick(), before));
}

static inline void check_same(const struct stat *one, const struct stat *other)
{
	CHECK(one->st_ino == other->st_ino && one->st_size == other->st_size);
	CHECK(is_same(one->st_atim, other->st_atim));
	CHECK(is_same(one->st_mtim, other->st_mtim));
	CHECK(is_same(one->st_ctim, other->st_ctim));
}

/* Finds out whether the counter is one of sleeps. */
static inline void find_counter(void)
{
	struct timespec start = now();

	for (int i = 0; i < 1000; i++)
		sched_yield();
	is_still = is_same(start, now());
}

#endif
