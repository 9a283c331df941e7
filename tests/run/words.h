/* SPDX-License-Identifier: MIT OR Apache-2.0 */
/* words.h - the words of a line that names a call, and what is printed of the call. */
#ifndef WORDS_H
#define WORDS_H

#include <errno.h>
#include <stdio.h>
#include <stdlib.h>
#include <string.h>
#include <sys/time.h>
#include <time.h>

/* a field that a call leaves as it was */
enum { LEFT = 77, WORDS_MOST = 32 };

/* The words of a line. */
static char *words[WORDS_MOST];
static int words_count;

static inline long argument(int place)
{
	return place < words_count ? strtol(words[place], NULL, 10) : 0;
}

static inline void show_result(long result)
{
	printf("%ld %s", result, errno ? strerrorname_np(errno) : "-");
}

static inline void show_time(long result, struct timespec time)
{
	show_result(result);
	printf(" %ld.%09ld\n", time.tv_sec, time.tv_nsec);
}

static inline void show_micros(long result, struct timeval time)
{
	show_result(result);
	printf(" %ld.%06ld", time.tv_sec, time.tv_usec);
}

static const struct timespec LEFT_TIME = { LEFT, LEFT };

/* Splits a line into its words. */
static inline void split(char *line)
{
	words_count = 0;
	for (char *word = strtok(line, " \n"); word && words_count < WORDS_MOST;
	     word = strtok(NULL, " \n"))
		words[words_count++] = word;
}

#endif
