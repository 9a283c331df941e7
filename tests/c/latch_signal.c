/* SPDX-License-Identifier: MIT OR Apache-2.0 */
/*
 * Reads a latch of include/tkcore_page.h in a signal handler that interrupts the writer. The
 * handler must find one whole publication: the last one, or the one that it interrupted. Its front
 * may not go back, and it may not wait, because the writer doesn't run until the handler returns.
 *
 *     latch_signal          a timer interrupts the writer every 50 us, for less than 2 s
 *
 * Compiled with -DAT_EACH_STORE, the writer is interrupted before and after each of its stores
 * instead. Then the handler also checks which of the two publications it finds.
 * tests/c/latch_controls shows that this finds wrong latches.
 */
#define _DEFAULT_SOURCE

#include <inttypes.h>
#include <signal.h>
#include <stdatomic.h>
#include <stdio.h>
#include <stdlib.h>
#include <string.h>
#include <sys/time.h>
#include <time.h>
#include <unistd.h>

enum {
	COMMANDS = 6,
	CYCLES = 1000000007, /* from one command to the next; a cycle is a nanosecond */
	INTERRUPTS = 2000, /* amid publications, after which the program ends */
};

static volatile uint64_t begun, done; /* the last publications that were begun and done */

#ifdef AT_EACH_STORE
enum { PERIOD = 0 }; /* no timer */
static int stores; /* of the present publication */

/* Does a store of the header. A publication is interrupted before it and after it. */
static void store(_Atomic uint64_t *word, uint64_t value, memory_order order)
{
	if (begun != done)
		raise(SIGALRM);
	atomic_store_explicit(word, value, order);
	stores++;
	if (begun != done)
		raise(SIGALRM);
}

#undef atomic_store_explicit
#define atomic_store_explicit(word, value, order) store(word, value, order)
#else
enum { PERIOD = 50 }; /* us */
#endif
#include <tkcore_page.h>

static struct tkc_latch latch;
static struct tkc_latch_reader reader; /* the handler's */
static struct tkc_clock clocks;
static volatile uint64_t cycles; /* what the counter shows */
static volatile int counter_reads; /* in this interrupt */

/* Publication n has the front n, and its words are words_of[n % 2]. */
static uint64_t words_of[2][TKC_WORDS];

/* What the handler found. */
static uint64_t front;
static volatile uint64_t interrupts, amid; /* all, and those amid a publication */
static const char *volatile wrong;

/* A second reading in one interrupt means that the reader has started again. Nothing can end that,
 * so the program ends. */
static uint64_t read_counter(void *context)
{
	static const char TEXT[] = "latch_signal: a reader waited\n";

	(void)context;
	if (counter_reads++) {
		if (write(STDERR_FILENO, TEXT, sizeof(TEXT) - 1) < 0)
			_exit(2);
		_exit(1);
	}
	return cycles + CYCLES / 2;
}

/* Checks the words of a snapshot that the latch gave. Returns what is wrong, or NULL. */
static const char *check_words(const uint64_t words[TKC_WORDS])
{
	if (words[0] != done && words[0] != begun)
		return "a publication that isn't one of the last two";
	if (words[0] < front)
		return "the front went back";
	front = words[0];
	if (memcmp(words, words_of[front % 2], sizeof(words_of[0])))
		return "words of two publications";
#ifdef AT_EACH_STORE
	/* Copy 0 is whole after the first sequence, its words and the second sequence. */
	if ((front == begun) != (stores >= 2 + TKC_LATCH_WORDS))
		return "not the publication that is whole";
#endif
	return NULL;
}

/* Reads the latch in each way. Returns what is wrong, or NULL. */
static const char *look(void)
{
	struct tkc_time now, time;
	struct tkc_snapshot snapshot;
	uint64_t words[TKC_WORDS];
	const char *fault;

	if (tkc_latch_read(&latch, &snapshot))
		return "no snapshot was read";
	tkc_snapshot_words(words, &snapshot);
	fault = check_words(words);
	if (fault)
		return fault;
	counter_reads = 0;
	if (tkc_latch_now(&latch, TKC_CLOCK_REALTIME, read_counter, NULL, &now))
		return "no time was read";
	if (tkc_snapshot_get(&time, &snapshot, TKC_CLOCK_REALTIME, cycles + CYCLES / 2))
		return "the snapshot has no time";
	if (memcmp(&now, &time, sizeof(now)))
		return "the time isn't the snapshot's";
	counter_reads = 0;
	if (tkc_latch_reader_get(&reader, read_counter, NULL, &now))
		return "no time was read by a line";
	return memcmp(&now, &time, sizeof(now)) ? "the time by a line isn't the snapshot's" : NULL;
}

static void interrupt(int number)
{
	(void)number;
	if (wrong)
		return;
	interrupts++;
	if (begun != done)
		amid++;
	wrong = look();
}

/* Applies a command that changes many words, and publishes its snapshot. */
static uint32_t command(void)
{
	static const struct {
		uint32_t command;
		int64_t number;
	} steps[COMMANDS] = {
		{ TKC_CMD_FREQ, 32768000 },
		{ TKC_CMD_STEP, 3 },
		{ TKC_CMD_TICK, 9000 + COMMANDS },
		{ TKC_CMD_TAI_OFFSET, 37 },
		{ TKC_CMD_SUSPEND, 0 },
		{ TKC_CMD_RESUME, 5 },
	};
	uint64_t next = done + 1;
	struct tkc_snapshot snapshot;
	uint32_t code;

	cycles += CYCLES;
	code = tkc_clock_apply(&clocks, cycles, steps[next % COMMANDS].command,
			       steps[next % COMMANDS].number, 1);
	tkc_clock_snapshot(&snapshot, &clocks);
	tkc_snapshot_words(words_of[next % 2], &snapshot);
#ifdef AT_EACH_STORE
	stores = 0;
#endif
	begun = next;
	tkc_latch_publish(&latch, &snapshot);
	done = next;
	return code;
}

static uint32_t open_latch(void)
{
	struct tkc_counter counter;
	struct tkc_snapshot snapshot;
	uint32_t code = tkc_counter_from_hz(&counter, 64, 1000000000, 10);

	if (code)
		return code;
	code = tkc_clock_open(&clocks, &counter, cycles, 1700000000, 0);
	if (code)
		return code;
	tkc_clock_snapshot(&snapshot, &clocks);
	tkc_snapshot_words(words_of[0], &snapshot);
	tkc_latch_init(&latch, &snapshot);
	return tkc_latch_reader_init(&reader, &latch, TKC_CLOCK_REALTIME);
}

static void set_timer(suseconds_t microseconds)
{
	struct itimerval timer = { { 0, microseconds }, { 0, microseconds } };

	if (setitimer(ITIMER_REAL, &timer, NULL)) {
		perror("latch_signal: timer");
		exit(EXIT_FAILURE);
	}
}

static uint32_t write_all(void)
{
	time_t end = time(NULL) + 2;
	uint32_t code = TKC_OK;

	set_timer(PERIOD);
	while (!code && !wrong && amid < INTERRUPTS && time(NULL) < end)
		code = command();
	set_timer(0);
	return code;
}

int main(void)
{
	struct sigaction action = { .sa_handler = interrupt };
	uint32_t code = open_latch();

	sigemptyset(&action.sa_mask);
	if (!code && !sigaction(SIGALRM, &action, NULL))
		code = write_all();
	if (code)
		fprintf(stderr, "latch_signal: code %" PRIu32 "\n", code);
	if (wrong)
		fprintf(stderr, "latch_signal: interrupt %" PRIu64 ": %s\n", interrupts, wrong);
	if (!code && !wrong && !amid)
		fprintf(stderr, "latch_signal: no publication was interrupted\n");
	if (code || wrong || !amid)
		return EXIT_FAILURE;
	printf("latch_signal: %" PRIu64 " interrupts, %" PRIu64 " of them amid a publication: each"
	       " found a whole one\n", interrupts, amid);
	return EXIT_SUCCESS;
}
