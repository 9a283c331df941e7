/* SPDX-License-Identifier: MIT OR Apache-2.0 */
/*
 * Reads MONOTONIC over the TSC from a page of tkcore_page.h, or from the kernel's vDSO.
 *
 *     page time library|vdso JOB..
 *
 * Prints for each job the ns of a read, of the fastest of some rounds. Before each round this thread
 * publishes, as often as the kernel's clock is updated. In a job "_writer", another thread publishes
 * each millisecond instead, and in a job "_4" three more threads read, each with its own reader.
 */
#define _POSIX_C_SOURCE 200809L
#include <pthread.h>
#include <stdatomic.h>
#include <stdio.h>
#include <stdlib.h>
#include <string.h>
#include <time.h>
#include <tkcore_page.h>

enum { ROUNDS = 100, READS = 50000, OTHERS = 3 };

static struct tkc_page page;
static struct tkc_clock clocks;
static _Thread_local struct tkc_page_reader reader;
static _Thread_local uint64_t sum; /* of what is read, so that it is read */
static _Atomic uint64_t total;
static atomic_int has_ended;

static void need(uint32_t code)
{
	if (!code)
		return;
	fprintf(stderr, "page: code %u\n", (unsigned int)code);
	exit(EXIT_FAILURE);
}

static double nanos(void)
{
	struct timespec time;

	clock_gettime(CLOCK_MONOTONIC, &time);
	return (double)time.tv_sec * 1e9 + (double)time.tv_nsec;
}

static void read_now(void)
{
	struct tkc_time time;

	for (int i = 0; i < READS; i++) {
		need(tkc_page_now(&page, TKC_CLOCK_MONOTONIC, tkc_tsc_for_reader, NULL, &time));
		sum += time.nsec;
	}
}

static void read_line(void)
{
	struct tkc_time time;

	for (int i = 0; i < READS; i++) {
		need(tkc_page_reader_get(&reader, tkc_tsc_for_reader, NULL, &time));
		sum += time.nsec;
	}
}

static void read_line_ns(void)
{
	uint64_t time;

	for (int i = 0; i < READS; i++) {
		need(tkc_page_reader_ns(&reader, tkc_tsc_for_reader, NULL, &time));
		sum += time;
	}
}

static void read_vdso(void)
{
	struct timespec time;

	for (int i = 0; i < READS; i++) {
		clock_gettime(CLOCK_MONOTONIC, &time);
		sum += (uint64_t)time.tv_nsec;
	}
}

static const struct job {
	const char *name;
	void (*read)(void);
	int others;
	int has_writer;
} jobs[] = {
	{ "c_page_now", read_now, 0, 0 },
	{ "c_page_line", read_line, 0, 0 },
	{ "c_page_line_4", read_line, OTHERS, 0 },
	{ "c_page_line_writer", read_line, 0, 1 },
	{ "c_page_line_4_writer", read_line, OTHERS, 1 },
	{ "c_page_line_ns", read_line_ns, 0, 0 },
};

static void publish(void)
{
	tkc_page_begin(&page);
	need(tkc_clock_update(&clocks, tkc_tsc_for_writer(NULL)));
	tkc_page_publish_clock(&page, &clocks);
}

/* Publishes each millisecond, until the job ends. */
static void *write_each_millisecond(void *unused)
{
	const struct timespec pause = { .tv_nsec = 1000000 };

	(void)unused;
	while (!atomic_load(&has_ended)) {
		publish();
		nanosleep(&pause, NULL);
	}
	return NULL;
}

/* Reads as the job does, until it ends. */
static void *read_beside(void *job)
{
	need(tkc_page_reader_init(&reader, &page, TKC_CLOCK_MONOTONIC));
	while (!atomic_load(&has_ended))
		((const struct job *)job)->read();
	atomic_fetch_add(&total, sum);
	return NULL;
}

static void start(pthread_t *thread, void *(*run)(void *), const struct job *job)
{
	if (!pthread_create(thread, NULL, run, (void *)job))
		return;
	fputs("page: a thread can't start\n", stderr);
	exit(EXIT_FAILURE);
}

/* Returns the ns of a read. */
static double round_of(const struct job *job)
{
	double begun;

	if (!job->has_writer)
		publish();
	begun = nanos();
	job->read();
	return (nanos() - begun) / READS;
}

/* Returns the ns of a read in the fastest round of a job. */
static double least_of(const struct job *job)
{
	pthread_t threads[OTHERS + 1];
	int count = 0;
	double least = 1e9;

	atomic_store(&has_ended, 0);
	if (job->has_writer)
		start(&threads[count++], write_each_millisecond, job);
	for (int i = 0; i < job->others; i++)
		start(&threads[count++], read_beside, job);
	for (int round = 0; round < ROUNDS; round++) {
		double next = round_of(job);

		least = next < least ? next : least;
	}
	atomic_store(&has_ended, 1);
	for (int i = 0; i < count; i++)
		pthread_join(threads[i], NULL);
	return least;
}

static void open_all(void)
{
	struct tkc_counter counter;

	need(tkc_counter_from_hz(&counter, 64, UINT64_C(2500000000), 600));
	need(tkc_clock_open(&clocks, &counter, tkc_tsc_for_reader(NULL), 1700000000, 0));
	tkc_page_init_clock(&page, &clocks);
	need(tkc_page_reader_init(&reader, &page, TKC_CLOCK_MONOTONIC));
}

int main(int argc, char **argv)
{
	int is_vdso = argc > 2 && !strcmp(argv[2], "vdso");

	open_all();
	for (int i = 3; i < argc; i++)
		for (size_t k = 0; k < sizeof(jobs) / sizeof(jobs[0]); k++) {
			struct job job = jobs[k];

			if (strcmp(argv[i], job.name))
				continue;
			if (is_vdso)
				job.read = read_vdso;
			printf("%s\t%.2f\tns/read\t-\n", job.name, least_of(&job));
		}
	return total + sum == 1;
}
