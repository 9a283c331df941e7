/* SPDX-License-Identifier: MIT OR Apache-2.0 */
/* The jobs of crates/tk_bench on steered clocks, in plain C. ../peer/main.rs describes the
 * arguments and the lines. */
#define _POSIX_C_SOURCE 200809L

#include "ntp.h"

#include <inttypes.h>
#include <stdio.h>
#include <stdlib.h>
#include <string.h>
#include <time.h>

enum { CALLS = 1000000, SECONDS = 10000, HZ = 1000, CHECKED_TURNS = 2 };

static const uint64_t SECOND = 1000000000;

/* A request of a daemon that disciplines its clock by the PLL, and one that only reads. */
static const struct request DAEMON = {
	.modes = OFFSET | MAXERROR | ESTERROR | STATUS | TIMECONST | NANO,
	.status = STA_PLL,
	.maxerror = 1000,
	.esterror = 500,
	.constant = 6,
};
static const struct request READ = { 0 };

struct job {
	const char *name, *unit;
	double items;
	uint64_t count, step; /* the calls of a turn, and the cycles between two of them */
	uint64_t (*turn)(const struct job *job, struct steered *steered);
	int turns;
};

/* Opens clocks whose numbers the compiler can't know, with an offset of 100 ms left to give, and a
 * frequency of 33.3 ppm, for which the multiplier has to change from second to second. */
static struct steered opened(void)
{
	static volatile uint32_t mult = 16777216, shift = 24;
	struct plain_clock clock = {
		.mask = UINT64_MAX,
		.mult = mult,
		.raw_mult = mult,
		.shift = shift,
		.real_offset = 1700000000 * SECOND,
	};
	struct request request = DAEMON;
	struct steered steered;

	steered_open(&steered, &clock, HZ);
	request.modes |= FREQUENCY;
	request.offset = 100000000;
	request.freq = 2182349;
	if (steered_adjtimex(&steered, 0, &request) < 0)
		abort();
	return steered;
}

static uint64_t magnitude(int64_t number)
{
	return number < 0 ? 0 - (uint64_t)number : (uint64_t)number;
}

/* Requests whose offsets go up and down, if the given one has an offset. */
static uint64_t requests(const struct job *job, struct steered *steered,
			 const struct request *given)
{
	uint64_t reading = 0, sum = 0;

	for (uint64_t i = 0; i < job->count; i++) {
		struct request request = *given;

		reading += job->step;
		request.offset = (int64_t)(i % 1024) - 512;
		if (steered_adjtimex(steered, reading, &request) < 0)
			abort();
		sum += magnitude(request.offset) ^ magnitude(request.freq) ^ magnitude(request.sub);
	}
	return sum;
}

static uint64_t asks(const struct job *job, struct steered *steered)
{
	return requests(job, steered, &DAEMON);
}

static uint64_t reads(const struct job *job, struct steered *steered)
{
	return requests(job, steered, &READ);
}

static uint64_t advances(const struct job *job, struct steered *steered)
{
	uint64_t reading = 0;

	for (uint64_t i = 0; i < job->count; i++) {
		if (!steered_advance(steered, reading += job->step))
			abort();
	}
	return 0;
}

static uint64_t updates(const struct job *job, struct steered *steered)
{
	uint64_t reading = 0;

	for (uint64_t i = 0; i < job->count; i++) {
		if (!steered_update(steered, reading += job->step))
			abort();
	}
	return 0;
}

static const struct job JOBS[] = {
	{ "ntp_adjtimex", "ns/request", CALLS, CALLS, 1000, asks, 20 },
	{ "ntp_adjtimex_read", "ns/request", CALLS, CALLS, 1000, reads, 20 },
	{ "ntp_advance", "ns/second", SECONDS, SECONDS, 1000000000, advances, 20 },
	{ "ntp_advance_day", "ms", 1e6, 1, 86400000000000, advances, 5 },
	{ "ntp_apply_1us", "ns/command", CALLS, CALLS, 1000, updates, 20 },
};

static double now(void)
{
	struct timespec time;

	clock_gettime(CLOCK_MONOTONIC, &time);
	return (double)time.tv_sec * 1e9 + (double)time.tv_nsec;
}

/* The same digest as in digest.rt of crates/tk_bench, of a snapshot's words. */
static uint64_t digest(const struct plain_clock *clock)
{
	uint64_t words[PLAIN_WORDS], digest = 0;

	plain_words(words, clock);
	words[0] = 0;
	words[7] *= 2;
	for (size_t i = 0; i < PLAIN_WORDS; i++)
		digest = (digest ^ words[i]) * 0x100000001b3;
	return digest;
}

static void run(const struct job *job, int is_timed)
{
	double least = 1e18;
	uint64_t check = 0;

	for (int i = 0; i < (is_timed ? job->turns : CHECKED_TURNS); i++) {
		struct steered steered = opened();
		double start = now(), time;

		check = job->turn(job, &steered);
		time = now() - start;
		check += digest(&steered.clock);
		least = time < least ? time : least;
	}
	printf("%s\t", job->name);
	if (is_timed)
		printf("%.3f\t%s\t", least / job->items, job->unit);
	printf("%" PRIu64 "\n", check);
}

static int is_wanted(const char *name, int count, char **names)
{
	for (int i = 0; i < count; i++) {
		if (!strcmp(names[i], name))
			return 1;
	}
	return count == 0;
}

int main(int argc, char **argv)
{
	if (argc > 1 && strcmp(argv[1], "time"))
		return 2;
	for (size_t i = 0; i < sizeof(JOBS) / sizeof(*JOBS); i++) {
		if (is_wanted(JOBS[i].name, argc > 2 ? argc - 2 : 0, argv + 2))
			run(&JOBS[i], argc > 1);
	}
	return 0;
}
