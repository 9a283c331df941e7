/* SPDX-License-Identifier: MIT OR Apache-2.0 */
/*
 * Publishes snapshots on a page of include/tkcore_page.h. One thread applies
 * commands and publishes a snapshot after each. Readers read MONOTONIC without
 * a lock, as the kernel's readers do under tk_core.seq
 * (kernel/time/timekeeping.c, Documentation/locking/seqlock.rst).
 *
 * The writer reads the counter after tkc_page_begin, and a reader reads it
 * before its second load of the sequence. So a reader never combines a snapshot
 * with a reading later than the next command's reading, and it never sees
 * MONOTONIC go back.
 *
 * Each thread has its own tkc_page_reader, which keeps MONOTONIC's line until
 * the next publication.
 *
 * The counter here is a word in memory. tests/c/page_tsc.c does this with
 * the TSC.
 */
#include <inttypes.h>
#include <pthread.h>
#include <stdatomic.h>
#include <stdbool.h>
#include <stdio.h>
#include <stdlib.h>
#include <tkcore_page.h>

enum {
	READERS = 3,
	COMMANDS = 1000000,
	CYCLES = 1000000, /* from one reading of the writer to the next */
	FASTEST = 32768000, /* 500 ppm, in 2^-16 ppm */
};

struct machine {
	struct tkc_page page;
	_Atomic uint64_t cycles; /* the counter's reading */
	atomic_bool is_done;
	struct tkc_counter counter;
	struct tkc_clock clock; /* used only by the writer */
};

struct reader {
	pthread_t thread;
	struct machine *machine;
	struct tkc_page_reader monotonic;
	uint64_t front, nanoseconds;
	const char *wrong;
};

/* Returns the counter's reading. `context` is the counter's word. */
static uint64_t read_counter(void *context)
{
	_Atomic uint64_t *cycles = context;

	return atomic_load_explicit(cycles, memory_order_relaxed);
}

static uint64_t advance_counter(struct machine *machine)
{
	return CYCLES + atomic_fetch_add_explicit(&machine->cycles, CYCLES,
						  memory_order_relaxed);
}

/* Applies a command at the counter's reading and publishes the result. */
static uint32_t command(struct machine *machine, uint32_t command,
			int64_t number)
{
	uint32_t code;

	tkc_page_begin(&machine->page);
	code = tkc_clock_apply(&machine->clock, advance_counter(machine),
			       command, number, 0);
	tkc_page_publish_clock(&machine->page, &machine->clock);
	return code;
}

/*
 * Applies all commands. The frequency alternates between its two limits, so a
 * reading out of order shows.
 */
static uint32_t write_all(struct machine *machine)
{
	uint32_t code = TKC_OK;

	for (int i = 0; i < COMMANDS && !code; i++) {
		code = command(machine, TKC_CMD_FREQ,
			       i % 2 ? FASTEST : -FASTEST);
		advance_counter(machine);
	}
	atomic_store(&machine->is_done, true);
	return code;
}

/* Reads the front of the page's snapshot. Returns the fault, or NULL. */
static const char *look_front(struct reader *reader)
{
	uint64_t words[TKC_WORDS];
	struct tkc_snapshot snapshot;

	if (tkc_page_read(&reader->machine->page, &snapshot))
		return "no snapshot was read";
	tkc_snapshot_words(words, &snapshot);
	if (words[0] < reader->front)
		return "the front went back";
	reader->front = words[0];
	return NULL;
}

/* Reads MONOTONIC, and then the front. Returns the fault, or NULL. */
static const char *look(struct reader *reader)
{
	struct machine *machine = reader->machine;
	uint64_t nanoseconds;

	if (tkc_page_reader_ns(&reader->monotonic, read_counter,
			       &machine->cycles, &nanoseconds))
		return "MONOTONIC has no time";
	if (nanoseconds < reader->nanoseconds)
		return "MONOTONIC went back";
	reader->nanoseconds = nanoseconds;
	return look_front(reader);
}

static void *read_all(void *argument)
{
	struct reader *reader = argument;

	while (!reader->wrong && !atomic_load(&reader->machine->is_done))
		reader->wrong = look(reader);
	if (!reader->wrong)
		reader->wrong = look(reader);
	if (!reader->wrong && reader->front != COMMANDS)
		reader->wrong = "the last snapshot was missed";
	return NULL;
}

static uint32_t open_machine(struct machine *machine)
{
	uint32_t code;

	code = tkc_counter_from_hz(&machine->counter, 56, 1000000000, 600);
	if (code)
		return code;
	code = tkc_clock_open(&machine->clock, &machine->counter,
			      read_counter(&machine->cycles), 1700000000, 0);
	if (code)
		return code;
	tkc_page_init_clock(&machine->page, &machine->clock);
	return TKC_OK;
}

static int start_readers(struct reader readers[READERS],
			 struct machine *machine)
{
	int started = 0;

	while (started < READERS) {
		readers[started] = (struct reader){ .machine = machine };
		if (tkc_page_reader_init(&readers[started].monotonic,
					 &machine->page, TKC_CLOCK_MONOTONIC))
			break;
		if (pthread_create(&readers[started].thread, NULL, read_all,
				   &readers[started]))
			break;
		started++;
	}
	return started;
}

/* Returns whether no reader found a fault. */
static bool join_readers(struct reader readers[READERS], int started)
{
	bool is_right = true;

	for (int i = 0; i < started; i++) {
		pthread_join(readers[i].thread, NULL);
		if (readers[i].wrong) {
			fprintf(stderr, "page: reader %d: %s\n", i,
				readers[i].wrong);
			is_right = false;
		}
	}
	return is_right;
}

int main(void)
{
	static struct machine machine;
	struct reader readers[READERS];
	uint32_t code = open_machine(&machine);
	bool is_right;
	int started;

	if (code) {
		fprintf(stderr, "page: code %" PRIu32 " at opening\n", code);
		return EXIT_FAILURE;
	}
	started = start_readers(readers, &machine);
	code = write_all(&machine);
	is_right = join_readers(readers, started);
	if (code)
		fprintf(stderr, "page: a command got code %" PRIu32 "\n", code);
	if (started < READERS)
		fprintf(stderr, "page: cannot start a thread\n");
	if (code || started < READERS || !is_right)
		return EXIT_FAILURE;
	printf("%d commands, %d readers: neither front nor MONOTONIC went back\n",
	       COMMANDS, READERS);
	return EXIT_SUCCESS;
}
