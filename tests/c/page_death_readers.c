/* SPDX-License-Identifier: MIT OR Apache-2.0 */
/* The readers of a page and a latch whose writers die. */
#define _DEFAULT_SOURCE

#include "page_death.h"

#include <stdlib.h>
#include <sys/wait.h>
#include <time.h>
#include <unistd.h>

/* Looks at the page. Returns MONOTONIC in ns. */
static uint64_t look(struct tkc_snapshot *snapshot)
{
	struct tkc_time time;
	uint64_t reading;

	if (tkc_page_look(&shared->page, read_counter, NULL, snapshot, &reading) ||
	    tkc_snapshot_get(&time, snapshot, TKC_CLOCK_MONOTONIC,
			     readings_at(reading).of[counter_of(snapshot)]))
		fail("a reader of the page has no time");
	return (uint64_t)time.sec * 1000000000 + time.nsec;
}

/* Does the same by the line that a reader keeps. */
static uint64_t look_by_line(struct tkc_page_reader *reader, struct tkc_snapshot *snapshot)
{
	uint64_t reading, nanos;

	if (tkc_page_reader_look(reader, read_counter, NULL, &reading) ||
	    tkc_kept_ns(&reader->kept, readings_at(reading).of[counter_of(&reader->kept.snapshot)],
			&nanos))
		fail("a reader of the page has no time by its line");
	*snapshot = reader->kept.snapshot;
	return nanos;
}

/* Reads the page until the end, when it must have the last snapshot, with and without a line in
 * turn. */
static void read_page(void)
{
	uint64_t front = 0, latest = 0, value, turn = 0;
	struct tkc_page_reader reader;
	struct tkc_snapshot snapshot;
	int is_last;

	if (tkc_page_reader_init(&reader, &shared->page, TKC_CLOCK_MONOTONIC))
		fail("no reader was made");
	do {
		is_last = shared->is_done;
		value = turn++ % 2 ? look_by_line(&reader, &snapshot) : look(&snapshot);
		if (front_of(&snapshot) < front)
			fail("the page's front went back");
		if (value < latest)
			fail("MONOTONIC went back");
		front = front_of(&snapshot);
		latest = value;
	} while (!is_last);
	if (front != shared->last_front)
		fail("a reader of the page missed the last snapshot");
}

static void read_latch(void)
{
	uint64_t front = 0, latest, turn = 0, reading;
	struct tkc_latch_reader reader;
	int is_last;

	if (tkc_latch_reader_init(&reader, &shared->latch, TKC_CLOCK_MONOTONIC))
		fail("no reader was made");
	do {
		is_last = shared->is_done;
		if (tkc_latch_reader_look(&reader, read_counter, NULL, &reading))
			fail("a reader of the latch has no line");
		latest = turn++ % 2 ? front_of(&reader.kept.snapshot) : latch_front();
		if (latest < front)
			fail("the latch's front went back");
		front = latest;
	} while (!is_last);
	if (front != shared->last_front)
		fail("a reader of the latch missed the last snapshot");
}

void start_readers(pid_t readers[READERS])
{
	for (int i = 0; i < READERS; i++) {
		readers[i] = start();
		if (readers[i])
			continue;
		if (i < READERS - 1)
			read_page();
		else
			read_latch();
		_exit(EXIT_SUCCESS);
	}
}

void await_readers(const pid_t readers[READERS])
{
	const struct timespec pause = { 0, 1000000 };
	time_t end = time(NULL) + LIMIT_SEC;
	int status;
	pid_t ended;

	for (int i = 0; i < READERS; i++) {
		while (!(ended = waitpid(readers[i], &status, WNOHANG))) {
			if (time(NULL) > end)
				fail("a reader waits forever");
			nanosleep(&pause, NULL);
		}
		if (ended != readers[i] || status)
			fail("a reader found a fault");
	}
}
