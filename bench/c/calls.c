/* SPDX-License-Identifier: MIT OR Apache-2.0 */
/* Times the jobs of jobs.h, by the library or by hand-written code, and prints them as
 * crates/tk_bench does. Without words it prints a line JOB<tab>CHECK for each job, with `time` a
 * line JOB<tab>NUMBER<tab>UNIT<tab>CHECK for each, and with `time JOB..` for these jobs alone. */
#define _POSIX_C_SOURCE 200809L

#include "jobs.h"

#include <inttypes.h>
#include <stdio.h>
#include <stdlib.h>
#include <string.h>
#include <time.h>

enum {
	CALLS = 200000, /* the fewest calls in a turn */
	NEAR = 4096,	/* stamps that stay in the cache */
	FAR = 10000000,
	CHECKED_TURNS = 2,
};

struct job {
	const char *name, *unit;
	void (*turn)(struct list *list);
	size_t count;
	uint64_t span; /* the readings lie within this many cycles after the opening */
	int turns;
};

static const uint64_t HOURS = (uint64_t)1 << 40;

_Noreturn void fail(const char *what)
{
	fprintf(stderr, "calls: %s\n", what);
	exit(EXIT_FAILURE);
}

static double now(void)
{
	struct timespec time;

	clock_gettime(CLOCK_MONOTONIC, &time);
	return (double)time.tv_sec * 1e9 + (double)time.tv_nsec;
}

static void *allocate(size_t size)
{
	void *at = malloc(size);

	if (!at)
		fail("out of memory");
	return at;
}

static void make_stamps(uint64_t *stamps, size_t count, uint64_t span)
{
	uint64_t state = 88172645463325252;

	for (size_t i = 0; i < count; i++) {
		state ^= state << 13;
		state ^= state >> 7;
		state ^= state << 17;
		stamps[i] = OPENED_AT + state % span;
	}
}

/* The same digest as in digest.rt of crates/tk_bench. */
static uint64_t digest(const uint64_t *numbers, size_t count)
{
	uint64_t digest = 0;

	for (size_t i = 0; i < count; i++)
		digest = (digest ^ numbers[i]) * 0x100000001b3;
	return digest;
}

/* The least time of the given number of turns, in ns per item of the list. */
static double least_of(const struct job *job, struct list *list, int turns)
{
	size_t repeats = job->count < CALLS ? CALLS / job->count : 1;
	double least = 1e18;

	for (int i = 0; i < turns; i++) {
		double start = now(), time;

		for (size_t k = 0; k < repeats; k++)
			job->turn(list);
		time = (now() - start) / (double)(repeats * job->count);
		least = time < least ? time : least;
	}
	return least;
}

static void run(const struct job *job, uint64_t *stamps, uint64_t *out, int is_timed)
{
	struct list list = { .stamps = stamps, .out = out, .count = job->count };
	double least;

	make_stamps(stamps, job->count, job->span);
	memset(out, 0, job->count * sizeof(*out));
	least = least_of(job, &list, is_timed ? job->turns : CHECKED_TURNS);
	printf("%s\t", job->name);
	if (is_timed)
		printf("%.3f\t%s\t", least, job->unit);
	if (job->turn == copy_all && copies)
		puts("-");
	else
		printf("%" PRIu64 "\n", digest(out, job->count));
}

static int is_wanted(const char *name, int count, char **names)
{
	for (int i = 0; i < count; i++) {
		if (!strcmp(names[i], name))
			return 1;
	}
	return 0;
}

int main(int argc, char **argv)
{
	const struct job jobs[] = {
		{ "c_get_1s", "ns/read", get_each, NEAR, HZ, 40 },
		{ "c_get_20s", "ns/read", get_each, NEAR, (uint64_t)HZ * 20, 40 },
		{ "c_get_12h", "ns/read", get_each, NEAR, HOURS, 40 },
		{ "c_get_words_1s", "ns/read", get_words_each, NEAR, HZ, 40 },
		{ "c_line_1s", "ns/read", get_line_each, NEAR, HZ, 40 },
		{ "c_apply_1us", "ns/command", update_each, NEAR, HZ, 40 },
		{ "c_convert_4096", "ns/stamp", convert_all, NEAR, (uint64_t)HZ * 20, 40 },
		{ "c_convert_4096_untested", "ns/stamp", convert_untested, NEAR,
		  (uint64_t)HZ * 20, 40 },
		{ "c_convert_12h", "ns/stamp", convert_all, NEAR, HOURS, 40 },
		{ "c_convert_10000000", "ns/stamp", convert_all, FAR, (uint64_t)HZ * 20, 5 },
		{ "c_convert_10000000_untested", "ns/stamp", convert_untested, FAR,
		  (uint64_t)HZ * 20, 5 },
		{ "c_convert_10000000_memcpy", "ns/stamp", copy_all, FAR, (uint64_t)HZ * 20, 5 },
	};
	uint64_t *stamps = allocate(FAR * sizeof(*stamps)), *out = allocate(FAR * sizeof(*out));

	if (argc > 1 && strcmp(argv[1], "time"))
		fail("words refused");
	open_clocks();
	for (size_t i = 0; i < sizeof(jobs) / sizeof(*jobs); i++) {
		if (argc < 3 || is_wanted(jobs[i].name, argc - 2, argv + 2))
			run(&jobs[i], stamps, out, argc > 1);
	}
	return EXIT_SUCCESS;
}
