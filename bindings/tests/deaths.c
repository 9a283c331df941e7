/* SPDX-License-Identifier: MIT OR Apache-2.0 */
/*
 * Tests the calls of another language on a page and a latch, as deaths.h describes:
 *   - Each act does the stores of tkcore_page.h, in its order.
 *   - A writer of tkcore_page.h publishes before each access of each read, and of the call that
 *     rebuilds clocks. A read returns the latest snapshot. Clocks are refused with TKC_BUSY.
 *   - Writers die before each store of a takeover and of a command, 5,336 in all. The next one
 *     takes over, while three processes read. No reader gets a mixture, waits forever or goes back.
 */
#define _GNU_SOURCE

#include "deaths.h"

#include <signal.h>
#include <stdio.h>
#include <stdlib.h>
#include <string.h>
#include <sys/mman.h>
#include <sys/prctl.h>
#include <sys/wait.h>
#include <unistd.h>

enum {
	/* The stores of a command and of a takeover. */
	LATCH = 2 * (1 + TKC_LATCH_WORDS),
	COMMAND = 1 + TKC_PAGE_WORDS + 1 + LATCH,
	TAKEOVER = 1 + TKC_PAGE_WORDS + 1 + TKC_LATCH_WORDS + LATCH,
	BEFORE_PUBLISHED = 1 + TKC_PAGE_WORDS + 1,
	PAIRS = (COMMAND + 1) * TAKEOVER,
	READERS = 3, /* the last one reads the latch, the others the page */
	NAPS = 16, /* reads between two naps of a reader */
	MOVES = 3, /* commands amid a read */
	ACCESSES = 64, /* of a read that isn't disturbed */
	LIMIT_SEC = 400, /* for all */
};

struct shared {
	_Atomic int is_done;
	_Atomic uint64_t last_front, seen[READERS];
};

static const char *language;
static deaths_act_call *act;
static deaths_read_call *read_once;
static struct shared *shared;

static int is_sequence[ACCESSES], access_count, move_at, die_at;
static uint64_t move_commands;
static uint64_t least_front; /* of the page and the latch, in a writer */

void fail(const char *what)
{
	fprintf(stderr, "deaths: %s: %s\n", language, what);
	_exit(EXIT_FAILURE);
}

static void only_count(int number, size_t place)
{
	access_count = number + 1;
	if (number < ACCESSES)
		is_sequence[number] = place == 1 || place == sizeof(struct tkc_page) / 8 + 1;
}

/* Compares the stores of an act with those of tkcore_page.h. */
static void check_stores(uint64_t which, uint64_t count, const void *start)
{
	static struct stored wanted[STORES];
	int wanted_count;

	memcpy(alias, start, DEATHS_SIZE);
	stop_accesses(only_count, 0);
	act_in_c(memory, which, count);
	stop_accesses(NULL, 0);
	memcpy(wanted, stores, sizeof(wanted));
	wanted_count = store_count;
	memcpy(alias, start, DEATHS_SIZE);
	stop_accesses(only_count, 0);
	act(memory, which, count);
	stop_accesses(NULL, 0);
	for (int i = 0; i < wanted_count && i < store_count; i++)
		if (stores[i].place != wanted[i].place || stores[i].value != wanted[i].value)
			fail("another store than tkcore_page.h's");
	if (store_count != wanted_count)
		fail("another number of stores than tkcore_page.h's");
}

/* Compares all acts, the takeover also from what a writer leaves that dies at each store. */
static void check_all_stores(void)
{
	static char start[DEATHS_SIZE], other[DEATHS_SIZE];
	static struct stored left[STORES];
	int left_count;

	memset(other, 0xa5, sizeof(other));
	check_stores(DEATHS_CREATE, 0, start);
	check_stores(DEATHS_CREATE, 0, other);
	check_stores(DEATHS_CREATE_SNAPSHOT, 0, other);
	check_stores(DEATHS_CREATE, 0, start);
	memcpy(start, alias, DEATHS_SIZE);
	check_stores(DEATHS_PUBLISH_SNAPSHOT, 0, start);
	check_stores(DEATHS_LIVE, 9, start);
	memcpy(left, stores, sizeof(left));
	left_count = store_count;
	for (int i = 0; i < left_count; i++) {
		((uint64_t *)start)[left[i].place] = left[i].value;
		check_stores(DEATHS_LIVE, 1, start);
	}
}

/* Takes over as another writer, which publishes the same clocks again, and does some commands. */
static void move(int number, size_t place)
{
	(void)place;
	if (number == move_at)
		act_in_c(alias, DEATHS_LIVE, move_commands);
}

/* Lets a writer publish before an access of a read. */
static void check_move(uint64_t which, int first)
{
	uint64_t words[TKC_LATCH_WORDS], code;

	act_in_c(alias, DEATHS_CREATE, 0);
	stop_accesses(move, 1);
	code = read_once(memory, which, words);
	stop_accesses(NULL, 0);
	if (which == DEATHS_CLOCK && move_at > first) {
		if (code != TKC_BUSY)
			fail("clocks of a page that moved are taken");
		return;
	}
	if (code)
		fail("a read failed");
	if (front_of(words) != move_commands)
		fail("a read missed a publication amid it");
}

static void check_moves(void)
{
	uint64_t words[TKC_LATCH_WORDS], which;
	int first, last;

	for (which = 0; which < DEATHS_READS; which++) {
		act_in_c(alias, DEATHS_CREATE, 0);
		stop_accesses(only_count, 1);
		if (read_once(memory, which, words) || front_of(words) || access_count > ACCESSES)
			fail("a read that isn't disturbed failed");
		stop_accesses(NULL, 0);
		for (first = 0; first < access_count && !is_sequence[first];)
			first++;
		last = access_count - 1;
		if (!is_sequence[last] || last - first <= TKC_LATCH_WORDS)
			fail("the words aren't between two loads of the sequence");
		for (move_commands = 0; move_commands <= MOVES; move_commands++)
			for (move_at = 0; move_at <= last; move_at++)
				check_move(which, first);
	}
}

/* Reads as tkcore_page.h does before each store of a writer, and dies before one of them. */
static void look_or_die(int number, size_t place)
{
	const struct tkc_page *page = alias;
	const struct tkc_latch *latch = (const struct tkc_latch *)(page + 1);
	uint64_t words[TKC_LATCH_WORDS], reading, front;

	(void)place;
	if (!tkc_latch_try(latch, tkc_no_reading, NULL, words, &reading))
		fail("a latch moves while its writer stands still");
	if (front_of(words) < least_front)
		fail("the latch's front went back");
	if (tkc_page_try(page, tkc_no_reading, NULL, words, &reading)) {
		front = front_of(words);
		if (front < least_front)
			fail("the page's front went back");
	}
	if (number == die_at) {
		kill(getpid(), SIGKILL);
		fail("a writer lives on");
	}
}

static pid_t start(void)
{
	pid_t parent = getpid(), child = fork();

	if (child < 0)
		fail("no process can be started");
	if (!child && (prctl(PR_SET_PDEATHSIG, SIGKILL) || getppid() != parent))
		_exit(EXIT_FAILURE);
	return child;
}

/* Lets a writer live, which dies before a store. */
static void run_life(int place, uint64_t commands, uint64_t front)
{
	pid_t child = start();
	int status;

	if (!child) {
		die_at = place;
		least_front = front ? front - 1 : 0; /* (the latch may be a publication behind) */
		stop_accesses(look_or_die, 0);
		act(memory, DEATHS_LIVE, commands);
		stop_accesses(NULL, 0);
		_exit(EXIT_SUCCESS);
	}
	if (waitpid(child, &status, 0) != child)
		fail("a writer is lost");
	if (place < 0 ? status != 0 : !WIFSIGNALED(status) || WTERMSIG(status) != SIGKILL)
		fail("a writer found a fault");
}

static void read_all(int number)
{
	int is_latch = number == READERS - 1, is_last;
	uint64_t words[TKC_LATCH_WORDS], front = 0, next, reads = 0;

	do {
		if (++reads % NAPS == 0)
			usleep(20);
		is_last = shared->is_done;
		if (read_once(memory, is_latch ? DEATHS_LATCH_LOOK : DEATHS_PAGE_LOOK, words))
			fail("a reader has no snapshot");
		next = front_of(words);
		if (next < front)
			fail("a reader's front went back");
		shared->seen[number] += next != front;
		front = next;
	} while (!is_last);
	if (front != shared->last_front)
		fail("a reader missed the last snapshot");
}

/* Runs two lives for each place of a takeover and each place of a command: one dies in its
 * takeover. */
static void check_deaths(void)
{
	uint64_t front = 0;
	pid_t readers[READERS];
	int status;

	act_in_c(alias, DEATHS_CREATE, 0);
	for (int i = 0; i < READERS; i++) {
		readers[i] = start();
		if (!readers[i]) {
			read_all(i);
			_exit(EXIT_SUCCESS);
		}
	}
	for (int i = 0; i < PAIRS; i++) {
		int place = i % (COMMAND + 1);

		run_life(i / (COMMAND + 1), 0, front);
		run_life(TAKEOVER + place, 2, front);
		front += place >= BEFORE_PUBLISHED;
	}
	run_life(-1, 1, front);
	shared->last_front = front + 1;
	shared->is_done = 1;
	for (int i = 0; i < READERS; i++)
		if (waitpid(readers[i], &status, 0) != readers[i] || status)
			fail("a reader found a fault");
}

void deaths_run(const char *name, deaths_act_call *act_call, deaths_read_call *read_call)
{
	language = name;
	act = act_call;
	read_once = read_call;
	alarm(LIMIT_SEC);
	map_memory();
	shared = mmap(NULL, sizeof(*shared), PROT_READ | PROT_WRITE, MAP_SHARED | MAP_ANONYMOUS, -1,
		      0);
	if (shared == MAP_FAILED)
		fail("no memory can be shared");
	note_all();
	check_all_stores();
	check_moves();
	check_deaths();
	printf("deaths: %s: each store is tkcore_page.h's, no read missed a move, and %d writers"
	       " died\n",
	       language, 2 * PAIRS);
	fflush(stdout);
}
