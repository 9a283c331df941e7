/* SPDX-License-Identifier: MIT OR Apache-2.0 */
/* grant.c - with --seed, grants the turn to one thread at a time. */
#define _GNU_SOURCE
#include "grant.h"

#include "hold.h"
#include "seeds.h"
#include "waited.h"

#include <errno.h>
#include <fcntl.h>
#include <stdio.h>
#include <stdlib.h>
#include <string.h>
#include <sys/mman.h>
#include <unistd.h>

enum {
	CALLS_BITS = 10, /* a turn has up to 2^CALLS_BITS calls */
	TRY_CALLS = 1 << CALLS_BITS, /* of a thread that tries its lock */
	RETRY_TIMES = 64, /* moves of the counter, from one try of the blocked threads to the next */
};

static struct turns *table; /* NULL without --seed */
static uint64_t state;	 /* of the random numbers */
static uint64_t untried; /* moves since the blocked threads have tried */
static uint64_t stuck;	 /* how often nothing could be done since the latest move or try */
static bool has_looked;	 /* those that wait for space have looked since something has changed */

static uint64_t draw(void)
{
	state += SPLITMIX_STEP;
	return splitmix_mix(state);
}

/* Returns how many calls a turn has: as often a few as many. The first one is that in which the
 * thread was parked. */
static uint32_t draw_calls(void)
{
	uint32_t bits = (uint32_t)(draw() % (CALLS_BITS + 1));

	return 2 + (uint32_t)(draw() & ((1U << bits) - 1));
}

static bool name_file(char path[PATH_MAX], const char *folder)
{
	return snprintf(path, PATH_MAX, "%s/turns", folder) < PATH_MAX;
}

/* Returns the file of the table, with its memory, or -1. */
static int make_file(const char *folder)
{
	char path[PATH_MAX];
	int file = -1, error;

	errno = ENAMETOOLONG;
	if (name_file(path, folder))
		file = open(path, O_RDWR | O_CREAT | O_EXCL | O_CLOEXEC, 0600);
	if (file < 0)
		return -1;
	error = posix_fallocate(file, 0, sizeof(*table));
	if (!error)
		return file;
	close(file);
	errno = error;
	return -1;
}

void turns_open(struct run *run)
{
	const struct options *options = &run->nodes->options;
	void *memory = MAP_FAILED;
	int file;

	if (!options->has_seed)
		return;
	file = make_file(run->nodes->folder);
	if (file >= 0)
		memory = mmap(NULL, sizeof(*table), PROT_READ | PROT_WRITE, MAP_SHARED, file, 0);
	if (memory == MAP_FAILED)
		fail(STATUS_FAILED, "cannot make the table of --seed: %s", strerror(errno));
	table = memory;
	table->layout = TURNS_LAYOUT;
	state = seed_for(options->seed, SEED_TURNS);
	files_offer_turns(file);
}

void turns_remove(const char *folder)
{
	char path[PATH_MAX];

	if (table && name_file(path, folder))
		unlink(path);
}

bool turns_are_on(void)
{
	return table && !atomic_load(&table->is_off);
}

bool turns_is_parked(const struct parked *entry, int32_t thread, uint32_t in)
{
	return thread > 0 && atomic_load(&entry->thread) == thread &&
	       parked_state(entry) == in;
}

bool turns_has_ready(int32_t thread)
{
	uint32_t count = table ? atomic_load(&table->count) : 0;

	for (uint32_t i = 0; i < count; i++) {
		if (turns_is_parked(&table->parked[i], thread, PARKED_READY))
			return true;
	}
	return false;
}

/* Frees an entry of a thread that is gone, or that has left it without freeing it: a thread that was
 * granted the turn frees its entry before it waits. Returns whether it did. */
static bool free_left(const struct run *run, struct parked *entry, int32_t thread)
{
	if (tree_find(&run->tree, thread) && parked_state(entry) != PARKED_GRANTED)
		return false;
	atomic_compare_exchange_strong(&entry->thread, &thread, 0);
	return true;
}

/* Lists the threads that are parked in a state. Returns their number. */
static size_t list_parked(const struct run *run, uint32_t in, int32_t threads[PARKED_MOST])
{
	uint32_t entries = atomic_load(&table->count);
	size_t count = 0;

	for (uint32_t i = 0; i < entries; i++) {
		struct parked *entry = &table->parked[i];
		int32_t thread = atomic_load(&entry->thread);

		if (thread > 0 && !free_left(run, entry, thread) && turns_is_parked(entry, thread, in))
			threads[count++] = thread;
	}
	return count;
}

static int compare(const void *one, const void *other)
{
	int32_t a = *(const int32_t *)one, b = *(const int32_t *)other;

	return (a > b) - (a < b);
}

/* Sorts threads, and leaves out those that are there already: a handler may park while its thread is
 * parked. Returns their number. */
static size_t sort(int32_t threads[PARKED_MOST], size_t count)
{
	size_t kept = 0;

	qsort(threads, count, sizeof(*threads), compare);
	for (size_t i = 0; i < count; i++) {
		if (!kept || threads[i] != threads[kept - 1])
			threads[kept++] = threads[i];
	}
	return kept;
}

/* Lets a thread go on, with all its entries in a state. All are changed before it runs: it may park
 * again at once. */
static void let_go(struct run *run, int32_t thread, uint32_t in)
{
	static struct parked *entries[PARKED_MOST];
	uint32_t all = atomic_load(&table->count);
	size_t count = 0;

	for (uint32_t i = 0; i < all; i++) {
		if (turns_is_parked(&table->parked[i], thread, in))
			entries[count++] = &table->parked[i];
	}
	atomic_store(&table->holder, thread);
	has_looked = false;
	hold_begins();
	run->tree.running = thread;
	for (size_t i = 0; i < count; i++)
		parked_change(entries[i], in, PARKED_GRANTED);
	for (size_t i = 0; i < count; i++)
		host_futex_wake(&entries[i]->word);
}

void turns_note_change(void)
{
	has_looked = false;
}

/* If nothing can be done, a process that isn't in the run may still read what a thread has written. */
void turns_note_move(bool has_moved)
{
	untried += has_moved;
	stuck = has_moved ? 0 : stuck + 1;
	has_looked &= !has_moved && stuck % RETRY_TIMES;
}

/* How often nothing could be done depends on the host, so it decides only if time doesn't move. */
static bool is_try_due(void)
{
	if (untried < RETRY_TIMES && stuck < RETRY_TIMES)
		return false;
	untried = stuck < RETRY_TIMES ? 0 : untried;
	stuck = 0;
	return true;
}

/* Lets the blocked threads try their locks again now and then, one after the other: who has unlocked
 * one may have made another call than those that tkrun knows. It changes nothing else. */
static bool try_blocked(struct run *run, int32_t threads[PARKED_MOST])
{
	static int32_t last;
	size_t count, next = 0;

	if (!last && !is_try_due())
		return false;
	count = list_parked(run, PARKED_BLOCKED, threads);
	count = sort(threads, count);
	while (next < count && threads[next] <= last)
		next++;
	last = next < count ? threads[next] : 0;
	if (!last)
		return false;
	atomic_store(&table->calls_left, TRY_CALLS);
	let_go(run, last, PARKED_BLOCKED);
	return true;
}

/* Lets the threads look that wait for space. All of them may at once: they change nothing. Returns
 * whether there are some. */
static bool let_look(void)
{
	uint32_t all = atomic_load(&table->count);
	bool is_any = false;

	if (has_looked)
		return false;
	has_looked = true;
	for (uint32_t i = 0; i < all; i++) {
		struct parked *entry = &table->parked[i];

		if (atomic_load(&entry->thread) <= 0 ||
		    !parked_change(entry, PARKED_LOOKS, PARKED_LOOKING))
			continue;
		host_futex_wake(&entry->word);
		is_any = true;
	}
	return is_any;
}

/* The order of the threads is that of their numbers, and so the order in which they were made. */
bool turns_grant(struct run *run)
{
	static int32_t threads[PARKED_MOST];
	size_t count;

	if (!turns_are_on())
		return false;
	atomic_store(&table->holder, 0);
	if (let_look())
		return true;
	count = list_parked(run, PARKED_READY, threads);
	if (!count)
		return try_blocked(run, threads);
	count = sort(threads, count);
	atomic_store(&table->calls_left, draw_calls());
	atomic_store(&table->is_waited, waited_are_there(&run->tree));
	let_go(run, threads[draw() % count], PARKED_READY);
	return true;
}

void turns_watch(struct run *run)
{
	if (turns_are_on())
		hold_watch(run, table);
}
