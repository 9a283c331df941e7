/* SPDX-License-Identifier: MIT OR Apache-2.0 */
/*
 * Changes the counter of clocks 10,000 times on one page and one latch of include/tkcore_page.h,
 * which threads and processes read. No reader may get words of one publication with the numbers of
 * another one's counter, and neither the fronts nor the page's MONOTONIC may go back.
 *
 * tests/c/change_controls shows that this finds wrong headers.
 */
#define _DEFAULT_SOURCE

#include "two_counters.h"

#include <pthread.h>
#include <signal.h>
#include <stdio.h>
#include <stdlib.h>
#include <sys/mman.h>
#include <sys/prctl.h>
#include <sys/wait.h>
#include <tkcore_page.h>
#include <unistd.h>

enum {
	CHANGES = 10000,
	MOST = 400000, /* changes, until each reader has seen enough of them */
	SEEN = 100, /* the snapshots that each reader must see */
	THREADS = 3, /* the last one reads the latch, the others the page */
	READERS = 2 * THREADS, /* as many in processes */
	STEP = 1000003, /* ns from one change to the next; some are longer */
	PAUSE = 16, /* changes after each of which the writer sleeps */
	LIMIT_SEC = 100, /* for all, which takes a second */
};

/* The memory that all processes share. */
struct shared {
	struct tkc_page page;
	struct tkc_latch latch;
	_Atomic uint64_t cycles, is_done;
	_Atomic uint64_t seen[READERS];
	/* of the snapshot with this front, with its counter */
	_Atomic uint64_t words_of[MOST + 1][TKC_LATCH_WORDS];
};

static struct shared *shared;
static struct tkc_counter counters[COUNTERS];

static void fail(const char *what)
{
	fprintf(stderr, "page_changes: %s\n", what);
	_exit(EXIT_FAILURE);
}

/* Reads both counters into the context. */
static uint64_t read_counters(void *context)
{
	struct readings *readings = context;

	*readings = readings_at(shared->cycles);
	return readings->of[0];
}

/* Returns the front of a snapshot, whose words and counter must be those of one publication. */
static uint64_t front_of(const struct tkc_snapshot *snapshot)
{
	uint64_t words[TKC_WORDS];
	int which = counter_of(snapshot);

	tkc_snapshot_words(words, snapshot);
	if (words[0] > MOST || which == COUNTERS)
		fail("a snapshot that no change made");
	for (int i = 0; i < TKC_WORDS; i++)
		if (words[i] != shared->words_of[words[0]][i])
			fail("a mixture of two snapshots");
	for (int i = 0; i < 3; i++)
		if (counter_numbers[which][i] != shared->words_of[words[0]][TKC_WORDS + i])
			fail("the words of one counter with the numbers of the other one");
	return words[0];
}

struct keeper {
	int is_latch;
	struct tkc_page_reader page;
	struct tkc_latch_reader latch;
};

/* Looks once. Returns MONOTONIC in ns by the snapshot's own counter. */
static uint64_t look(int is_latch, uint64_t *front)
{
	struct readings readings;
	struct tkc_snapshot snapshot;
	struct tkc_time time;
	uint64_t reading;

	if (is_latch ?
	    tkc_latch_look(&shared->latch, read_counters, &readings, &snapshot, &reading) :
	    tkc_page_look(&shared->page, read_counters, &readings, &snapshot, &reading))
		fail("a look has no snapshot");
	*front = front_of(&snapshot);
	if (tkc_snapshot_get(&time, &snapshot, TKC_CLOCK_MONOTONIC,
			     readings.of[counter_of(&snapshot)]))
		fail("MONOTONIC has no time");
	return (uint64_t)time.sec * 1000000000 + time.nsec;
}

/* Does the same by the line that a reader keeps. */
static uint64_t look_by_line(struct keeper *keeper, uint64_t *front)
{
	const struct tkc_kept *kept = keeper->is_latch ? &keeper->latch.kept : &keeper->page.kept;
	struct readings readings;
	uint64_t reading, nanos;
	enum tkc_code code;

	if (keeper->is_latch)
		code = tkc_latch_reader_look(&keeper->latch, read_counters, &readings, &reading);
	else
		code = tkc_page_reader_look(&keeper->page, read_counters, &readings, &reading);
	if (code)
		fail("a look by a line has no snapshot");
	*front = front_of(&kept->snapshot);
	if (tkc_kept_ns(kept, readings.of[counter_of(&kept->snapshot)], &nanos))
		fail("MONOTONIC has no time by a line");
	return nanos;
}

/* Reads until the end, with and without a line in turn. Only a page's MONOTONIC never goes back. */
static void read_all(int number)
{
	int is_latch = number % THREADS == THREADS - 1;
	uint64_t front = 0, latest = 0, next, value, is_last, turn = 0;
	struct keeper keeper = { .is_latch = is_latch };

	if (tkc_page_reader_init(&keeper.page, &shared->page, TKC_CLOCK_MONOTONIC) ||
	    tkc_latch_reader_init(&keeper.latch, &shared->latch, TKC_CLOCK_MONOTONIC))
		fail("no reader was made");
	do {
		is_last = shared->is_done;
		value = turn++ % 3 ? look_by_line(&keeper, &next) : look(is_latch, &next);
		if (next < front)
			fail("the front went back");
		if (!is_latch && value < latest)
			fail("MONOTONIC went back");
		shared->seen[number] += next != front;
		front = next;
		latest = value;
	} while (!is_last);
}

static void *read_in_thread(void *number)
{
	read_all((int)(intptr_t)number);
	return NULL;
}

/* Publishes the clocks, whose words are noted first. */
static void publish(const struct tkc_clock *clock)
{
	uint64_t words[TKC_SAVED_WORDS];
	struct tkc_snapshot snapshot;

	tkc_clock_save(words, clock);
	for (int i = 0; i < TKC_LATCH_WORDS; i++)
		shared->words_of[words[0]][i] = words[i];
	tkc_page_publish_clock(&shared->page, clock);
	tkc_clock_snapshot(&snapshot, clock);
	tkc_latch_publish(&shared->latch, &snapshot);
}

static void change(struct tkc_clock *clock, int number)
{
	struct readings readings;
	int to = number % COUNTERS;
	uint32_t code;

	shared->cycles += STEP;
	tkc_page_begin(&shared->page);
	shared->cycles += (uint64_t)(number % 1000);
	read_counters(&readings);
	code = tkc_clock_change_counter(clock, readings.of[!to], &counters[to], readings.of[to]);
	publish(clock);
	if (code)
		fail("a change was refused");
	shared->cycles += STEP;
}

/* Sets the frequency and the tick to their limits in turn, so that the multiplier changes too. */
static void steer(struct tkc_clock *clock, int number)
{
	int which = number % COUNTERS;
	struct readings readings;
	uint32_t code;

	tkc_page_begin(&shared->page);
	read_counters(&readings);
	code = number / 8 % 2 ? tkc_clock_set_tick(clock, readings.of[which], 9000 + number % 2001) :
				tkc_clock_set_frequency(clock, readings.of[which],
							number % 16 ? 32768000 : -32768000);
	publish(clock);
	if (code)
		fail("a command was refused");
}

static int have_all_seen(void)
{
	for (int i = 0; i < READERS; i++)
		if (shared->seen[i] < SEEN)
			return 0;
	return 1;
}

/* Changes the counter. Returns the number of changes. */
static int change_all(struct tkc_clock *clock)
{
	int number = 1, fronts = 0;

	for (; number <= CHANGES || (fronts < MOST - 2 && !have_all_seen()); number++) {
		change(clock, number);
		fronts++;
		if (number % 8 == 0) {
			steer(clock, number);
			fronts++;
		}
		if (number % PAUSE == 0)
			usleep(50);
	}
	shared->is_done = 1;
	return number - 1;
}

static void start_processes(pid_t children[THREADS])
{
	for (int i = 0; i < THREADS; i++) {
		pid_t parent = getpid();

		children[i] = fork();
		if (children[i] < 0)
			fail("no process can be started");
		if (children[i])
			continue;
		if (prctl(PR_SET_PDEATHSIG, SIGKILL) || getppid() != parent)
			_exit(EXIT_FAILURE);
		read_all(THREADS + i);
		_exit(EXIT_SUCCESS);
	}
}

static void start_threads(pthread_t threads[THREADS])
{
	for (int i = 0; i < THREADS; i++)
		if (pthread_create(&threads[i], NULL, read_in_thread, (void *)(intptr_t)i))
			fail("no thread can be started");
}

static void await_all(const pthread_t threads[THREADS], const pid_t children[THREADS])
{
	int status;

	for (int i = 0; i < THREADS; i++) {
		if (pthread_join(threads[i], NULL))
			fail("a thread is lost");
		if (waitpid(children[i], &status, 0) != children[i] || status)
			fail("a reader in a process found a fault");
	}
}

static void open_all(struct tkc_clock *clock)
{
	struct tkc_snapshot snapshot;

	if (make_counters(counters) || tkc_clock_open(clock, &counters[0], 0, 1700000000, 0))
		fail("no clocks were opened");
	tkc_clock_snapshot(&snapshot, clock);
	tkc_page_init_clock(&shared->page, clock);
	tkc_latch_init(&shared->latch, &snapshot);
	publish(clock);
}

int main(void)
{
	pthread_t threads[THREADS];
	pid_t children[THREADS];
	struct tkc_clock clock;
	int changes;

	alarm(LIMIT_SEC);
	shared = mmap(NULL, sizeof(*shared), PROT_READ | PROT_WRITE, MAP_SHARED | MAP_ANONYMOUS, -1,
		      0);
	if (shared == MAP_FAILED)
		fail("no memory can be shared");
	open_all(&clock);
	start_processes(children);
	start_threads(threads);
	changes = change_all(&clock);
	await_all(threads, children);
	if (!have_all_seen())
		fail("a reader saw too few snapshots");
	printf("page_changes: %d changes of counter: no reader got a torn snapshot or went back\n",
	       changes);
	return EXIT_SUCCESS;
}
