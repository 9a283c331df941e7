/* SPDX-License-Identifier: MIT OR Apache-2.0 */
/*
 * Reads a page of include/tkcore_page.h in three threads while a fourth changes the frequency and
 * the tick between their limits, over the TSC, or on AArch64 over CNTVCT_EL0. Neither the front nor
 * MONOTONIC may go back for any reader. A fifth thread reads a latch, whose front may not go back.
 *
 *     page_tsc SECONDS
 *
 * Compiled with one of these it must fail within seconds; tests/c/page_controls tries them:
 *   -DREADING_FIRST   the writer reads the counter before it begins
 *   -DREADING_LAST    a reader reads the counter after its second load of the sequence
 */
#include <inttypes.h>
#include <pthread.h>
#include <stdio.h>
#include <stdlib.h>
#include <tkcore_page.h>

enum { READERS = 3, STEPS = 6, PAUSES = 208333 /* of the writer in a second, at most */ };

struct machine {
	struct tkc_page page;
	struct tkc_latch latch;
	_Atomic int is_done;
	struct tkc_counter counter;
	struct tkc_clock clock; /* used by the writer alone */
};

struct reader {
	pthread_t thread;
	const struct machine *machine;
	int reads_latch;
	struct tkc_page_reader page_reader;
	struct tkc_latch_reader latch_reader;
	uint64_t reads, front, nanoseconds;
	const char *wrong;
};

#ifdef __aarch64__
#define COUNTER "CNTVCT_EL0"
#define read_counter tkc_cntvct_for_reader
#define read_to_write tkc_cntvct_for_writer

static uint64_t cycles_in_a_second(void)
{
	uint64_t hz;

	__asm__("mrs %0, cntfrq_el0" : "=r"(hz));
	return hz;
}
#else
#define COUNTER "the TSC"
#define read_counter tkc_tsc_for_reader
#define read_to_write tkc_tsc_for_writer

static uint64_t cycles_in_a_second(void)
{
	return 2500000000; /* about */
}
#endif

static void pause_writer(void)
{
	uint64_t start = read_counter(NULL), cycles = cycles_in_a_second() / PAUSES;

	while (read_counter(NULL) - start < cycles)
		;
}

/* Applies the command of a step and publishes the snapshot. */
static uint32_t command(struct machine *machine, int step)
{
	static const struct {
		uint32_t command;
		int64_t number;
	} steps[STEPS] = {
		{ TKC_CMD_TICK, 11000 },
		{ TKC_CMD_TICK, 9000 },
		{ TKC_CMD_FREQ, 32768000 },
		{ TKC_CMD_TICK, 11000 },
		{ TKC_CMD_TICK, 9000 },
		{ TKC_CMD_FREQ, -32768000 },
	};
	struct tkc_snapshot snapshot;
	uint64_t reading;
	uint32_t code;

#ifdef READING_FIRST
	reading = read_to_write(NULL);
	tkc_page_begin(&machine->page);
#else
	tkc_page_begin(&machine->page);
	reading = read_to_write(NULL);
#endif
	code = tkc_clock_apply(&machine->clock, reading, steps[step].command, steps[step].number,
			       0);
	tkc_clock_snapshot(&snapshot, &machine->clock);
	tkc_page_publish(&machine->page, &snapshot);
	tkc_latch_publish(&machine->latch, &snapshot);
	return code;
}

static uint32_t write_all(struct machine *machine, uint64_t cycles)
{
	uint64_t start = read_counter(NULL);
	uint32_t code = TKC_OK;
	int step = 0;

	while (!code && read_counter(NULL) - start < cycles) {
		code = command(machine, step);
		step = (step + 1) % STEPS;
		pause_writer();
	}
	atomic_store(&machine->is_done, 1);
	return code;
}

/* Reads MONOTONIC, and stores the snapshot's front where the reader knows it. */
static uint32_t now(struct reader *reader, struct tkc_time *time)
{
#ifdef READING_LAST
	struct tkc_snapshot snapshot;
	uint32_t code = tkc_page_read(&reader->machine->page, &snapshot);

	if (code)
		return code;
	return tkc_snapshot_get(time, &snapshot, TKC_CLOCK_MONOTONIC, read_counter(NULL));
#else
	if (reader->reads % 2)
		return tkc_page_reader_get(&reader->page_reader, read_counter, NULL, time);
	return tkc_page_now(&reader->machine->page, TKC_CLOCK_MONOTONIC, read_counter, NULL, time);
#endif
}

/* Reads the front of the latch or of the page. */
static uint32_t read_front(struct reader *reader, uint64_t *front)
{
	struct tkc_snapshot snapshot;
	uint64_t words[TKC_WORDS];
	uint32_t code;

	if (reader->reads_latch)
		code = tkc_latch_read(&reader->machine->latch, &snapshot);
	else
		code = tkc_page_read(&reader->machine->page, &snapshot);
	if (code)
		return code;
	tkc_snapshot_words(words, &snapshot);
	*front = words[0];
	return TKC_OK;
}

/* Reads a clock, and the front at each 256th read. Returns what is wrong, or NULL. */
static const char *look(struct reader *reader)
{
	struct tkc_time time = { 0, 0, 0 };
	uint64_t front, nanoseconds;

	if (reader->reads++ % 256 == 0) {
		if (read_front(reader, &front))
			return "no snapshot was read";
		if (front < reader->front)
			return "the front went back";
		reader->front = front;
	}
	if (reader->reads_latch)
		return tkc_latch_now(&reader->machine->latch, TKC_CLOCK_MONOTONIC, read_counter,
				     NULL, &time) ||
		       tkc_latch_reader_get(&reader->latch_reader, read_counter, NULL, &time) ?
		       "the latch has no time" : NULL;
	if (now(reader, &time))
		return "MONOTONIC has no time";
	nanoseconds = (uint64_t)time.sec * 1000000000 + time.nsec;
	if (nanoseconds < reader->nanoseconds)
		return "MONOTONIC went back";
	reader->nanoseconds = nanoseconds;
	return NULL;
}

static void *read_all(void *argument)
{
	struct reader *reader = argument;

	while (!reader->wrong && !atomic_load(&reader->machine->is_done))
		reader->wrong = look(reader);
	return NULL;
}

static uint32_t open_machine(struct machine *machine)
{
	struct tkc_snapshot snapshot;
	uint32_t code;

	code = tkc_counter_from_hz(&machine->counter, 64, 1000000000, 600);
	if (code)
		return code;
	code = tkc_clock_open(&machine->clock, &machine->counter, read_counter(NULL), 1700000000,
			      0);
	if (code)
		return code;
	tkc_clock_snapshot(&snapshot, &machine->clock);
	tkc_page_init(&machine->page, &snapshot);
	tkc_latch_init(&machine->latch, &snapshot);
	return TKC_OK;
}

/* Starts the readers, the last of which reads the latch. */
static void start_readers(struct reader readers[READERS + 1], const struct machine *machine)
{
	for (int i = 0; i <= READERS; i++) {
		readers[i] = (struct reader){ .machine = machine, .reads_latch = i == READERS };
		if (tkc_page_reader_init(&readers[i].page_reader, &machine->page,
					 TKC_CLOCK_MONOTONIC) ||
		    tkc_latch_reader_init(&readers[i].latch_reader, &machine->latch,
					  TKC_CLOCK_MONOTONIC) ||
		    pthread_create(&readers[i].thread, NULL, read_all, &readers[i])) {
			fprintf(stderr, "page_tsc: can't start a thread\n");
			exit(EXIT_FAILURE);
		}
	}
}

static int join_readers(struct reader readers[READERS + 1])
{
	int faults = 0;

	for (int i = 0; i <= READERS; i++) {
		pthread_join(readers[i].thread, NULL);
		if (!readers[i].wrong)
			continue;
		fprintf(stderr, "page_tsc: reader %d, read %" PRIu64 ": %s\n", i,
			readers[i].reads, readers[i].wrong);
		faults++;
	}
	return faults;
}

int main(int argc, char **argv)
{
	static struct machine machine;
	struct reader readers[READERS + 1];
	uint64_t seconds = argc > 1 ? strtoull(argv[1], NULL, 10) : 5;
	uint32_t code = open_machine(&machine);
	int faults;

	if (code) {
		fprintf(stderr, "page_tsc: %" PRIu32 " at opening\n", code);
		return EXIT_FAILURE;
	}
	start_readers(readers, &machine);
	code = write_all(&machine, seconds * cycles_in_a_second());
	faults = join_readers(readers);
	if (code)
		fprintf(stderr, "page_tsc: a command got code %" PRIu32 "\n", code);
	if (code || faults)
		return EXIT_FAILURE;
	printf("page_tsc: over " COUNTER ", neither front nor MONOTONIC went back\n");
	return EXIT_SUCCESS;
}
