/* SPDX-License-Identifier: MIT OR Apache-2.0 */
/*
 * Kills the writer of a page and a latch of include/tkcore_page.h at each of its stores, and lets
 * another process take over, again and again on one page and one latch. Three processes read them
 * the whole time. No reader may get a mixture of two snapshots or wait forever, and neither fronts
 * nor the page's MONOTONIC may go back.
 *
 * A life is one writer's process, which takes over and applies a command or changes the counter.
 * Lives die in turn in the takeover and in the command, before each store of these. Before each
 * store a life also reads the page and the latch itself, and must find what the steps of the header
 * say.
 *
 * tests/c/death_controls shows that this finds wrong headers.
 */
#define _DEFAULT_SOURCE

#include "page_death.h"

#include <inttypes.h>
#include <signal.h>
#include <stdio.h>
#include <stdlib.h>
#include <sys/mman.h>
#include <sys/prctl.h>
#include <sys/wait.h>
#include <unistd.h>

struct shared *shared;
struct tkc_counter counters[COUNTERS];

_Noreturn void fail(const char *what)
{
	fprintf(stderr, "page_death: %s\n", what);
	_exit(EXIT_FAILURE);
}

uint64_t read_counter(void *context)
{
	(void)context;
	return shared->cycles;
}

pid_t start(void)
{
	pid_t parent = getpid(), child = fork();

	if (child < 0)
		fail("no process can be started");
	if (!child && (prctl(PR_SET_PDEATHSIG, SIGKILL) || getppid() != parent))
		_exit(EXIT_FAILURE);
	return child;
}

/* Waits for a writer, which must die if it has a place to. */
static void await(pid_t child, int place)
{
	int status;

	if (waitpid(child, &status, 0) != child)
		fail("a writer is lost");
	if (place < 0 ? status != 0 : !WIFSIGNALED(status) || WTERMSIG(status) != SIGKILL)
		fail("a writer found a fault");
}

static void run_life(int number, int place, uint64_t front, int commands)
{
	pid_t child = start();

	if (!child) {
		live(number, place, front, commands);
		_exit(EXIT_SUCCESS);
	}
	await(child, place);
}

/* Runs two lives for each place of a takeover and each place of a command: one dies in its
 * takeover, and so publishes nothing new. Returns the front of the life after them. */
static uint64_t run_lives(void)
{
	uint64_t front = 0;

	for (int i = 0; i < PAIRS; i++) {
		int place = i % (COMMAND + 1);

		run_life(2 * i, i / (COMMAND + 1), front, 0);
		run_life(2 * i + 1, TAKEOVER + place, front, 2);
		front += place >= BEGIN + PUBLISH;
	}
	run_life(2 * PAIRS, -1, front, COMMANDS);
	return front + COMMANDS;
}

static void open_all(struct tkc_clock *clock)
{
	if (make_counters(counters) ||
	    tkc_clock_open(clock, &counters[0], read_counter(NULL), 1700000000, 0))
		fail("no clocks were opened");
	note(clock);
}

static void init(const struct tkc_clock *clock, int is_latch)
{
	struct tkc_snapshot snapshot;

	tkc_clock_snapshot(&snapshot, clock);
	if (is_latch)
		tkc_latch_init(&shared->latch, &snapshot);
	else
		tkc_page_init_clock(&shared->page, clock);
}

/* Kills a writer that makes the page or the latch, which is one already. It must be none then. */
static void check_init(const struct tkc_clock *clock, int is_latch, int stores)
{
	for (int place = 1; place < stores; place++) {
		pid_t child;

		init(clock, is_latch);
		if (is_latch ? tkc_latch_attach(&shared->latch) : tkc_page_attach(&shared->page))
			fail("a page or a latch isn't one");
		child = start();
		if (!child) {
			life.stores = 0;
			life.place = place;
			init(clock, is_latch);
			_exit(EXIT_SUCCESS);
		}
		await(child, place);
		if ((is_latch ? tkc_latch_attach(&shared->latch) :
				tkc_page_attach(&shared->page)) != TKC_BAD_LAYOUT)
			fail("a page or a latch that was never made is one");
	}
	life.stores = 0;
	init(clock, is_latch);
	if (life.stores != stores)
		fail("the header has another number of stores than this file");
}

int main(void)
{
	pid_t readers[READERS];
	struct tkc_clock clock;

	alarm(LIMIT_ALL_SEC);
	shared = mmap(NULL, sizeof(*shared), PROT_READ | PROT_WRITE, MAP_SHARED | MAP_ANONYMOUS, -1,
		      0);
	if (shared == MAP_FAILED)
		fail("no memory can be shared");
	open_all(&clock);
	check_init(&clock, 0, PAGE_INIT);
	check_init(&clock, 1, LATCH_INIT);
	start_readers(readers);
	shared->last_front = run_lives();
	shared->is_done = 1;
	await_readers(readers);
	printf("page_death: %d writers died, and each time the next one took over: no reader got a"
	       " mixture, waited forever or went back\n", 2 * PAIRS);
	return EXIT_SUCCESS;
}
