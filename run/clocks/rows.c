/* SPDX-License-Identifier: MIT OR Apache-2.0 */
/* rows.c - adds rows to the record, while the program runs. */
#define _GNU_SOURCE
#include "rows.h"

#include <fcntl.h>
#include <string.h>
#include <sys/mman.h>
#include <sys/prctl.h>
#include <sys/syscall.h>

enum { ROOM_WAIT = NANOS }; /* the longest wait for tkrun to make room */

/* Returns the machine's own chunks, or those of a program, which has only one machine. */
static struct chunks *chunks_of(const struct machine *machine)
{
	static struct chunks chunks;

	return machine->chunks ? machine->chunks : &chunks;
}

/* The C library's calls would change errno, and a thread may be cancelled at some of
 * them: neither happens where a program reads a clock. */
static struct record_row *map_chunk(const struct machine *machine, uint64_t number)
{
	const long size = ROWS_IN_CHUNK * sizeof(struct record_row);
	long file = host_open(machine->control->rows.path, O_RDWR, FILE_ROWS);
	struct record_row *other = NULL;
	long chunk;

	if (file < 0)
		return NULL;
	chunk = host_call(SYS_mmap, 0, size, PROT_READ | PROT_WRITE, MAP_SHARED,
			  file, (long)number * size);
	host_call(SYS_close, file, 0, 0, 0, 0, 0);
	if (chunk < 0)
		return NULL;
	if (atomic_compare_exchange_strong(&chunks_of(machine)->of[number], &other,
					   (struct record_row *)chunk))
		return (struct record_row *)chunk;
	host_call(SYS_munmap, chunk, size, 0, 0, 0, 0); /* another was faster */
	return other;
}

/* Waits until tkrun has made room for a row. Returns false if it doesn't. */
static bool wait_room(struct rows *rows, uint64_t index)
{
	uint64_t until = host_nanos(CLOCK_MONOTONIC) + ROOM_WAIT;
	uint64_t now;

	while (index >= atomic_load(&rows->room)) {
		if (atomic_load(&rows->is_full))
			return false;
		now = host_nanos(CLOCK_MONOTONIC);
		if (now >= until)
			return false;
		atomic_fetch_add(&rows->wanted, 1);
		host_futex_wake(&rows->wanted);
		host_nap(100000);
	}
	return true;
}

/* Takes rows of one chunk that follow each other. Returns the first, or NULL. */
static struct record_row *find_rows(const struct machine *machine, uint64_t count)
{
	struct rows *rows = &machine->control->rows;
	uint64_t index, number;
	struct record_row *chunk;

	do {
		index = atomic_fetch_add_explicit(&rows->count, count,
						  memory_order_relaxed);
	} while (index % ROWS_IN_CHUNK + count > ROWS_IN_CHUNK);
	number = index / ROWS_IN_CHUNK;
	if (number >= CHUNKS_MOST ||
	    (index + count > atomic_load_explicit(&rows->room,
						  memory_order_acquire) &&
	     !wait_room(rows, index + count - 1)))
		return NULL;
	chunk = atomic_load_explicit(&chunks_of(machine)->of[number],
				     memory_order_acquire);
	if (!chunk)
		chunk = map_chunk(machine, number);
	return chunk ? &chunk[index % ROWS_IN_CHUNK] : NULL;
}

void rows_steer(struct rows *rows)
{
	atomic_store(&rows->is_steered, true);
}

/* Takes rows, or counts a lost one. */
static struct record_row *take_rows(const struct machine *machine, uint64_t count)
{
	struct rows *rows = &machine->control->rows;
	struct record_row *slot = NULL;

	if (!atomic_load_explicit(&rows->lost, memory_order_relaxed))
		slot = find_rows(machine, count);
	if (!slot)
		atomic_fetch_add(&rows->lost, 1);
	return slot;
}

static void put_row(struct record_row *slot, const struct record_row *row)
{
	slot->kind = row->kind;
	slot->code = row->code;
	slot->nsec = row->nsec;
	slot->calls = row->calls;
	slot->reading = row->reading;
	slot->number = row->number;
	atomic_store_explicit(&slot->is_ready, 1, memory_order_release);
}

void rows_add(struct machine *machine, const struct record_row *row)
{
	struct record_row *slot = take_rows(machine, 1);

	if (slot)
		put_row(slot, row);
}

_Static_assert(sizeof(struct reader_row) == sizeof(struct record_row), "layout");

static char own_program[NAME_BYTES];
static _Thread_local const struct clock_reader *other_reader;

void rows_name_program(void)
{
	host_call(SYS_prctl, PR_GET_NAME, (long)own_program, 0, 0, 0, 0);
}

void rows_read_for(const struct clock_reader *reader)
{
	other_reader = reader;
}

static struct clock_reader present_reader(void)
{
	struct clock_reader own;

	if (other_reader)
		return *other_reader;
	own.process = (int32_t)host_call(SYS_getpid, 0, 0, 0, 0, 0, 0);
	own.thread = (int32_t)host_call(SYS_gettid, 0, 0, 0, 0, 0, 0);
	memcpy(own.program, own_program, sizeof(own.program));
	return own;
}

void rows_add_read(struct machine *machine, const struct record_row *row,
		   enum read_call call)
{
	bool has_reader = machine->control->rows.has_readers;
	struct record_row *slot = take_rows(machine, 1 + has_reader);
	struct reader_row *next;

	if (!slot)
		return;
	if (has_reader) {
		next = (struct reader_row *)slot + 1;
		next->call = call;
		next->reader = present_reader();
	}
	put_row(slot, row);
}

_Static_assert(sizeof(struct words_row) == sizeof(struct record_row), "layout");
_Static_assert(sizeof(struct asked_words) <=
		       WORDS_ROWS * sizeof(((struct words_row *)0)->words),
	       "a request has its words");

void rows_add_asked(struct machine *machine, const struct record_row *row,
		    const struct asked_words *asked)
{
	int64_t words[WORDS_ROWS][4] = { 0 };
	struct record_row *slot;

	/* tkrun may read it as soon as it has counted the rows */
	rows_steer(&machine->control->rows);
	slot = take_rows(machine, 1 + WORDS_ROWS);
	if (!slot)
		return;
	memcpy(words, asked, sizeof(*asked));
	for (int i = 0; i < WORDS_ROWS; i++)
		memcpy(((struct words_row *)slot)[1 + i].words, words[i],
		       sizeof(words[i]));
	put_row(slot, row);
}

void rows_asked(const struct record_row *row, struct asked_words *asked)
{
	const struct words_row *next = (const struct words_row *)row + 1;
	int64_t words[WORDS_ROWS][4];

	for (int i = 0; i < WORDS_ROWS; i++)
		memcpy(words[i], next[i].words, sizeof(words[i]));
	memcpy(asked, words, sizeof(*asked));
}
