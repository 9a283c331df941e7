/* SPDX-License-Identifier: MIT OR Apache-2.0 */
/* recording.h - makes tkcore scripts of the record's rows, and checks them. */
#ifndef RECORDING_H
#define RECORDING_H

#include "clocks/rows.h"
#include "tkrun/plan.h"

#include <stdio.h>

/* The rows in the order of the replay. */
struct list {
	const struct record_row **rows;
	uint64_t count;
};

/* A part has the rows of the list from `first` to before `end`. */
struct part {
	uint64_t first, end;
};

/* The record of a run. FILE is the first part, FILE.2 the second, and so on. Each
 * later part continues the clocks of the former one. Its reads state the values
 * that the program saw. */
struct recording {
	const char *path;
	char rows_path[4096];
	struct control *control; /* of the clocks */
	int rows_file;
	int error;	  /* errno, if rows couldn't be kept */
	uint64_t missing; /* the first row that is missing then */
	uint64_t gap;	  /* the first command that is missing, or 0 */
	uint64_t reads, commands;
	bool is_steered; /* the script opens with a discipline */
	bool has_readers; /* a file says who made each read: readers.h */
	struct list list;
	struct part *parts;
	unsigned int part_count;
	pthread_t thread;
	bool is_over;
};

/* Creates the file of rows, and starts the thread that makes room in it. Ends
 * tkrun if the file can't be created. */
void recording_start(struct recording *recording, struct control *control,
		     const struct options *options);

/* Writes the scripts, and removes the file of rows. Returns false if they can't be
 * written. */
bool recording_write(struct recording *recording, struct machine *machine,
		     const struct plan *plan);

/* Finds tkcore in tkrun's folder or in PATH, and ends tkrun if there is none. */
void find_tkcore(void);

/* Starts the replay of a script. Returns its report, or NULL. The child, if it isn't
 * negative, has to be waited for. */
FILE *tkcore_replay(const char *script, pid_t *child);

/* Replays all parts by tkcore, and passes signals on to it, which end the replay.
 * Returns the number of results that differ, and prints the first of them. NOT_RUN
 * means that tkcore can't be run. */
#define NOT_RUN UINT64_MAX
uint64_t recording_check(const struct recording *recording);

/* Stores the name of a part, which counts from 1. */
void recording_part(const struct recording *recording, unsigned int part,
		    char *name, size_t size);

/* A request that only reads isn't one. */
static inline bool is_command(const struct record_row *row)
{
	return row->kind < ROW_ASK;
}

static inline bool is_request(const struct record_row *row)
{
	return row->kind == ROW_REQUEST || row->kind == ROW_ASK;
}

static inline bool is_accepted(const struct record_row *row)
{
	return is_command(row) && !row->code;
}

#endif
