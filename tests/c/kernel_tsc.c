/* SPDX-License-Identifier: GPL-2.0 */
/*
 * Reads the clocks of examples/kernel/clocks.c in three threads of a process
 * while a fourth changes the frequency and the tick between their limits, over
 * the TSC. clocks.c is compiled as it is, over the definitions of
 * tests/c/linux, which order as much as the kernel's do on x86. MONOTONIC must
 * not go back, neither for a thread nor from one thread to another, and no
 * snapshot may be a mixture of two.
 *
 *     kernel_tsc SECONDS
 *
 * tests/c/page_controls shows that it finds missing barriers.
 */
#include "clocks.h"

#include <inttypes.h>
#include <pthread.h>
#include <stdatomic.h>
#include <stdio.h>
#include <stdlib.h>

enum {
	READERS = 3,
	PAUSE = 12000, /* cycles */
	HZ = 1000000000,
	FASTEST = 32768000, /* 500 ppm, in 2^-16 ppm */
};

__extension__ typedef unsigned __int128 u128;

struct reader {
	pthread_t thread;
	u64 latest; /* MONOTONIC that it has seen */
	u64 reads, back, below, most; /* below: another thread's time */
	u64 refused, mixed;
};

static struct clocks clocks;
static u64 opened; /* the reading */
static u32 bits, mult, shift; /* of the counter */
static _Atomic u64 latest; /* MONOTONIC that any reader has seen */
static atomic_bool is_done;

/* As examples/kernel/counter.c reads it. */
static u64 read_tsc(void)
{
	u64 reading = rdtsc_ordered();

	rmb();
	return reading;
}

static void raise_latest(u64 value)
{
	u64 old = atomic_load(&latest);

	while (old < value &&
	       !atomic_compare_exchange_weak(&latest, &old, value))
		;
}

/* In a whole snapshot, MONOTONIC_RAW depends only on the counter. */
static bool is_whole(const struct tkc_snapshot *snapshot, u64 reading)
{
	u64 cycles = reading - opened;
	struct tkc_time raw;

	if (tkc_snapshot_get(&raw, snapshot, TKC_CLOCK_MONOTONIC_RAW, reading))
		return false;
	return (u64)raw.sec * HZ + raw.nsec ==
	       (u64)((u128)cycles * mult >> shift);
}

/* As a handler of an NMI reads. */
static void look_fast(struct reader *reader)
{
	struct tkc_snapshot snapshot;
	u64 reading;

	clocks_look_fast(&clocks, &snapshot, &reading);
	reader->mixed += !is_whole(&snapshot, reading);
}

static void note_back(struct reader *reader, u64 *count, u64 earlier, u64 value)
{
	if (value >= earlier)
		return;
	++*count;
	if (earlier - value > reader->most)
		reader->most = earlier - value;
}

/* Reads MONOTONIC, and compares it with other threads' if `compares`. */
static void look(struct reader *reader, bool compares)
{
	u64 reading, value, others = compares ? atomic_load(&latest) : 0;
	struct tkc_snapshot snapshot;
	struct tkc_time time;

	smp_mb(); /* `latest` is read before the counter */
	clocks_look(&clocks, &snapshot, &reading);
	reader->reads++;
	reader->mixed += !is_whole(&snapshot, reading);
	if (tkc_snapshot_get(&time, &snapshot, TKC_CLOCK_MONOTONIC, reading)) {
		reader->refused++;
		return;
	}
	value = (u64)time.sec * HZ + time.nsec;
	note_back(reader, &reader->back, reader->latest, value);
	note_back(reader, &reader->below, others, value);
	reader->latest = value;
	if (compares)
		raise_latest(value);
}

static void *read_all(void *argument)
{
	struct reader *reader = argument;

	while (!atomic_load(&is_done)) {
		for (int i = 0; i < 16; i++)
			look(reader, i % 4 == 0);
		look_fast(reader);
	}
	return NULL;
}

static void pause_writer(void)
{
	u64 start = read_tsc();

	while (read_tsc() - start < PAUSE)
		;
}

/* Changes the frequency and the tick between their limits. */
static u32 write_all(u64 cycles)
{
	static const struct command commands[] = {
		{ .command = TKC_CMD_TICK, .number = 11000 },
		{ .command = TKC_CMD_TICK, .number = 9000 },
		{ .command = TKC_CMD_FREQ, .number = FASTEST },
		{ .command = TKC_CMD_TICK, .number = 11000 },
		{ .command = TKC_CMD_TICK, .number = 9000 },
		{ .command = TKC_CMD_FREQ, .number = -FASTEST },
	};
	struct command command = { .code = TKC_OK };
	u64 start = read_tsc();

	for (size_t i = 0; !command.code && read_tsc() - start < cycles; i++) {
		command = commands[i % ARRAY_SIZE(commands)];
		clocks_command(&clocks, &command);
		pause_writer();
	}
	atomic_store(&is_done, true);
	return command.code;
}

static u32 open_clocks(void)
{
	const struct tkc_time time = { 1700000000, 0, 0 };
	u32 code = tkc_counter_from_hz(&clocks.counter, 64, HZ, 600);

	if (code)
		return code;
	tkc_counter_numbers(&bits, &mult, &shift, &clocks.counter);
	clocks.read_counter = read_tsc;
	opened = read_tsc();
	return clocks_open(&clocks, opened, &time);
}

static bool start_readers(struct reader readers[READERS])
{
	for (int i = 0; i < READERS; i++)
		if (pthread_create(&readers[i].thread, NULL, read_all,
				   &readers[i]))
			return false;
	return true;
}

/* Joins the readers, and returns whether none found a fault. */
static bool join_readers(struct reader readers[READERS])
{
	bool is_right = true;

	for (int i = 0; i < READERS; i++) {
		const struct reader *reader = &readers[i];

		pthread_join(reader->thread, NULL);
		if (!reader->back && !reader->below && !reader->refused &&
		    !reader->mixed && reader->reads)
			continue;
		fprintf(stderr,
			"kernel_tsc: reader %d: of %" PRIu64 " reads %" PRIu64
			" went back, %" PRIu64 " were below another thread's,"
			" by at most %" PRIu64 " ns; %" PRIu64
			" were refused, %" PRIu64 " mixed\n",
			i, reader->reads, reader->back, reader->below,
			reader->most, reader->refused, reader->mixed);
		is_right = false;
	}
	return is_right;
}

int main(int argc, char **argv)
{
	static struct reader readers[READERS];
	u64 seconds = argc > 1 ? strtoull(argv[1], NULL, 10) : 5;
	u32 code = open_clocks();
	bool is_right;

	if (code) {
		fprintf(stderr, "kernel_tsc: code %" PRIu32 " at opening\n",
			code);
		return EXIT_FAILURE;
	}
	if (!start_readers(readers)) {
		fprintf(stderr, "kernel_tsc: can't start a thread\n");
		return EXIT_FAILURE;
	}
	code = write_all(seconds * 2500000000U);
	is_right = join_readers(readers);
	if (code)
		fprintf(stderr, "kernel_tsc: a command got code %" PRIu32 "\n",
			code);
	if (code || !is_right)
		return EXIT_FAILURE;
	printf("kernel_tsc: over the TSC, the kernel's clocks didn't go back\n");
	return EXIT_SUCCESS;
}
