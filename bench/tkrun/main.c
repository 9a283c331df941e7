/* SPDX-License-Identifier: MIT OR Apache-2.0 */
/*
 * Reads a clock as a program does, by clock_gettime. tkrun, libfaketime or the
 * kernel's vDSO answers.
 *
 *     main time JOB..
 *
 * Prints for each job the ns of a read: of the fastest round, and of the slowest
 * thread if there are four. A round lasts for several ms, so that it contains
 * several commands of the writer. The writer sets REALTIME each millisecond, and
 * only runs on the clocks of tkrun.
 */
#define _GNU_SOURCE
#include <pthread.h>
#include <stdatomic.h>
#include <stdbool.h>
#include <stdio.h>
#include <stdlib.h>
#include <string.h>
#include <time.h>

enum { ROUNDS = 10, READS = 200000, THREADS_MOST = 4 };

static const struct job {
	const char *name;
	clockid_t clock;
	int threads;
	bool has_writer;
} JOBS[] = {
	{ "run_tsc", CLOCK_MONOTONIC, 1, false },
	{ "run_tsc_4", CLOCK_MONOTONIC, 4, false },
	{ "run_tsc_writer", CLOCK_MONOTONIC, 1, true },
	{ "run_tsc_4_writer", CLOCK_MONOTONIC, 4, true },
	{ "run_raw", CLOCK_MONOTONIC, 1, false },
	{ "run_raw_4", CLOCK_MONOTONIC, 4, false },
	{ "run_raw_writer", CLOCK_MONOTONIC, 1, true },
	{ "run_coarse", CLOCK_MONOTONIC_COARSE, 1, false },
	{ "run_static_tsc", CLOCK_MONOTONIC, 1, false },
	{ "run_static_raw", CLOCK_MONOTONIC, 1, false },
};

static atomic_bool is_over;

struct reader {
	pthread_t thread;
	clockid_t clock;
	double least; /* ns */
};

static double processor_nanos(void)
{
	struct timespec time;

	clock_gettime(CLOCK_THREAD_CPUTIME_ID, &time);
	return (double)time.tv_sec * 1e9 + (double)time.tv_nsec;
}

static void *read_rounds(void *argument)
{
	struct reader *reader = argument;
	struct timespec time;

	reader->least = 1e9;
	for (int round = 0; round < ROUNDS; round++) {
		double start = processor_nanos(), nanos;

		for (int i = 0; i < READS; i++)
			clock_gettime(reader->clock, &time);
		nanos = (processor_nanos() - start) / READS;
		if (nanos < reader->least)
			reader->least = nanos;
	}
	return NULL;
}

static void *write_clock(void *unused)
{
	const struct timespec nap = { 0, 1000000 }, time = { 1000000000, 0 };

	while (!is_over) {
		clock_settime(CLOCK_REALTIME, &time);
		nanosleep(&nap, NULL);
	}
	return unused;
}

static double run_job(const struct job *job)
{
	bool has_writer = job->has_writer && getenv("TKRUN");
	struct reader readers[THREADS_MOST];
	pthread_t writer;
	double slowest = 0;

	is_over = false;
	if (has_writer)
		pthread_create(&writer, NULL, write_clock, NULL);
	for (int i = 0; i < job->threads; i++) {
		readers[i].clock = job->clock;
		pthread_create(&readers[i].thread, NULL, read_rounds,
			       &readers[i]);
	}
	for (int i = 0; i < job->threads; i++) {
		pthread_join(readers[i].thread, NULL);
		if (readers[i].least > slowest)
			slowest = readers[i].least;
	}
	is_over = true;
	if (has_writer)
		pthread_join(writer, NULL);
	return slowest;
}

int main(int count, char **words)
{
	for (size_t i = 0; i < sizeof(JOBS) / sizeof(*JOBS); i++) {
		for (int word = 2; word < count; word++) {
			if (!strcmp(words[word], JOBS[i].name))
				printf("%s\t%.2f\tns/read\t-\n", JOBS[i].name,
				       run_job(&JOBS[i]));
		}
	}
	return 0;
}
