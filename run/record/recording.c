/* SPDX-License-Identifier: MIT OR Apache-2.0 */
/* recording.c - makes room for the rows of a record, and lists them at its end. */
#define _GNU_SOURCE
#include "recording.h"

#include "parts.h"
#include "readers.h"

#include <errno.h>
#include <fcntl.h>
#include <limits.h>
#include <stdio.h>
#include <stdlib.h>
#include <string.h>
#include <sys/mman.h>
#include <unistd.h>

enum {
	ROWS_AHEAD = 4 * ROWS_IN_CHUNK, /* rows that the file has room for */
	ROOM_NANOS = 5000000,		/* the span between two looks at it */
};

/* Makes room for the rows to come. A missing block would kill the program, so
 * the file's blocks are allocated before its rows are. */
static void make_room(struct recording *recording, struct rows *rows)
{
	const off_t size = ROWS_IN_CHUNK * sizeof(struct record_row);
	uint64_t room = atomic_load(&rows->room);

	while (!atomic_load(&rows->lost) &&
	       room < atomic_load(&rows->count) + ROWS_AHEAD) {
		off_t start = (off_t)(room / ROWS_IN_CHUNK) * size;

		recording->error =
			posix_fallocate(recording->rows_file, start, size);
		if (recording->error) {
			recording->missing = room;
			atomic_store(&rows->is_full, true);
			return;
		}
		room += ROWS_IN_CHUNK;
		atomic_store(&rows->room, room);
	}
}

static void *keep_room(void *argument)
{
	struct recording *recording = argument;
	struct rows *rows = &recording->control->rows;
	uint32_t wanted;

	while (!__atomic_load_n(&recording->is_over, __ATOMIC_ACQUIRE) &&
	       !recording->error) {
		wanted = atomic_load(&rows->wanted);
		make_room(recording, rows);
		host_futex_wait(&rows->wanted, wanted,
				host_nanos(CLOCK_MONOTONIC) + ROOM_NANOS);
	}
	return NULL;
}

void recording_start(struct recording *recording, struct control *control,
		     const struct options *options)
{
	struct rows *rows = &control->rows;
	char full[PATH_MAX];
	FILE *file = fopen(recording->path, "we");

	if (!file || !realpath(recording->path, full) ||
	    snprintf(recording->rows_path, sizeof(recording->rows_path),
		     "%s.rows", full) >= (int)sizeof(recording->rows_path))
		fail(STATUS_WRONG, "--record: cannot write '%s': %s",
		     recording->path, strerror(errno));
	fclose(file);
	recording->has_readers = options->has_readers;
	if (recording->has_readers)
		readers_start(recording);
	recording->rows_file =
		open(recording->rows_path,
		     O_RDWR | O_CREAT | O_TRUNC | O_CLOEXEC, 0600);
	if (recording->rows_file < 0)
		fail(STATUS_WRONG, "--record: cannot write '%s': %s",
		     recording->rows_path, strerror(errno));
	strcpy(rows->path, recording->rows_path);
	rows->every = options->every;
	rows->reads_most = options->reads_most;
	rows->has_readers = options->has_readers;
	recording->control = control;
	make_room(recording, rows);
	if (pthread_create(&recording->thread, NULL, keep_room, recording))
		fail(STATUS_FAILED, "cannot start a thread");
}

/* The mask of readings if the clocks were steered, or 0. */
static uint64_t steered_mask;

/* The first reading in the order of readings, which wrap. */
static uint64_t earliest;

static bool is_coarse(const struct record_row *row)
{
	return row->kind == ROW_READ + TKC_CLOCK_REALTIME_COARSE ||
	       row->kind == ROW_READ + TKC_CLOCK_MONOTONIC_COARSE;
}

/* Compares the readings of two rows after the same command. A coarse clock has its
 * time since the command. */
static int compare_readings(const struct record_row *a,
			    const struct record_row *b)
{
	uint64_t first = (a->reading - earliest) & steered_mask;
	uint64_t second = (b->reading - earliest) & steered_mask;

	if (is_coarse(a) != is_coarse(b))
		return is_coarse(a) ? -1 : 1;
	if (is_coarse(a) || first == second)
		return 0;
	return first < second ? -1 : 1;
}

/* Orders rows by the numbers of accepted calls. A command comes before the reads that saw it, and
 * these are in the order of their readings: a request that only reads lets the
 * seconds up to its reading begin. Else the order of the file stays. */
static int compare_rows(const void *first, const void *second)
{
	const struct record_row *a = *(const struct record_row *const *)first;
	const struct record_row *b = *(const struct record_row *const *)second;

	if (a->calls != b->calls)
		return a->calls < b->calls ? -1 : 1;
	if (is_accepted(a) != is_accepted(b))
		return is_accepted(a) ? -1 : 1;
	if (!is_accepted(a) && compare_readings(a, b))
		return compare_readings(a, b);
	return a < b ? -1 : a > b;
}

/* Orders the rows after each command, or after the opening at a reading, by their
 * readings: those up to half of the counter's range before it come first. */
static void sort_readings(struct list *list, uint64_t reading)
{
	uint64_t first = 0;

	for (uint64_t i = 0; i <= list->count; i++) {
		if (i < list->count && !is_accepted(list->rows[i]))
			continue;
		earliest = reading - steered_mask / 2;
		qsort(list->rows + first, i - first, sizeof(*list->rows),
		      compare_rows);
		reading = i < list->count ? list->rows[i]->reading : 0;
		first = i + 1;
	}
}

/* The program's processes can write to the rows, so a row may be any bytes. */
static bool is_whole(const struct record_row *row)
{
	return atomic_load(&row->is_ready) &&
	       (row->kind <= TKC_CMD_RESUME || is_request(row) ||
		(row->kind >= ROW_READ &&
		 row->kind <= ROW_READ + TKC_CLOCK_TAI));
}

/* Returns the number of rows that follow a row and belong to it. */
static uint64_t rows_after(const struct record_row *row, bool has_readers)
{
	if (is_request(row))
		return WORDS_ROWS;
	return has_readers && row->kind >= ROW_READ;
}

/*
 * Lists the rows that are to be replayed. A command that was never published,
 * because its writer died, isn't one: a later command has its number, or none.
 */
static bool list_rows(struct list *list, const struct record_row *rows,
		      uint64_t count, uint64_t calls, bool has_readers)
{
	uint64_t kept = 0;

	list->rows = malloc((count + 1) * sizeof(*list->rows));
	list->count = 0;
	if (!list->rows)
		return false;
	for (uint64_t i = 0; i < count; i++) {
		if (is_whole(&rows[i]) && rows[i].calls <= calls &&
		    i + rows_after(&rows[i], has_readers) < count)
			list->rows[list->count++] = &rows[i];
	}
	qsort(list->rows, list->count, sizeof(*list->rows), compare_rows);
	for (uint64_t i = 0; i < list->count; i++) {
		if (i + 1 < list->count && is_accepted(list->rows[i]) &&
		    is_accepted(list->rows[i + 1]) &&
		    list->rows[i]->calls == list->rows[i + 1]->calls)
			continue;
		list->rows[kept++] = list->rows[i];
	}
	list->count = kept;
	return true;
}

/* Ends the list before the first command that is missing, since later values
 * depend on it. Returns the number of this command, or 0 if none is missing. */
static uint64_t end_at_gap(struct list *list)
{
	uint64_t calls = 0; /* at the opening */

	for (uint64_t i = 0; i < list->count; i++) {
		calls += is_accepted(list->rows[i]);
		if (list->rows[i]->calls != calls) {
			list->count = i;
			return is_accepted(list->rows[i]) ? calls : calls + 1;
		}
	}
	return 0;
}

/* Returns the number of calls that the present clocks have accepted. */
static uint64_t calls_of(const struct machine *machine)
{
	const struct control *control = machine->control;

	return control->clocks[atomic_load(&control->present) % 2].calls;
}

bool recording_write(struct recording *recording, struct machine *machine,
		     const struct plan *plan)
{
	struct rows *rows = &machine->control->rows;
	uint64_t count = atomic_load(&rows->count);
	struct record_row *memory = NULL;
	struct list *list = &recording->list;
	int error = 0;

	steered_mask = atomic_load(&rows->is_steered) ? machine->shared->mask : 0;
	__atomic_store_n(&recording->is_over, true, __ATOMIC_RELEASE);
	pthread_join(recording->thread, NULL);
	if (count > atomic_load(&rows->room))
		count = atomic_load(&rows->room);
	if (count)
		memory = mmap(NULL, count * sizeof(*memory), PROT_READ,
			      MAP_SHARED, recording->rows_file, 0);
	if (memory == MAP_FAILED ||
	    !list_rows(list, memory, count, calls_of(machine),
		       recording->has_readers))
		error = ENOMEM;
	if (!error) {
		if (steered_mask)
			sort_readings(list, plan->first);
		recording->gap = end_at_gap(list);
		recording->is_steered = steered_mask;
		error = parts_write(recording, plan);
	}
	if (!error && recording->has_readers)
		error = readers_write(recording);
	if (error)
		fprintf(stderr, "tkrun: cannot write the record '%s': %s\n",
			recording->path, strerror(error));
	close(recording->rows_file);
	unlink(recording->rows_path);
	return !error;
}
