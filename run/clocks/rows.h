/* SPDX-License-Identifier: MIT OR Apache-2.0 */
/* rows.h - the record, while the program runs: a file of rows that all of its
 * processes map, a chunk at a time. */
#ifndef ROWS_H
#define ROWS_H

#include "machine.h"

enum {
	ROW_REQUEST = 50, /* of adjtimex */
	ROW_ASK = 60,	  /* of adjtimex, which only reads */
	ROW_READ = 100,	  /* plus the clock: the kind of a read */
	ROWS_IN_CHUNK = 1 << 16,
	CHUNKS_MOST = 1 << 14,
};

/*
 * A row. `kind` is a command (enum tkc_command), or ROW_READ plus a clock. A
 * read has the number of calls that the clocks had accepted, and its time in `number`
 * and `nsec`. A command that was accepted has its own number among them, and one that
 * was refused the number of those before it. `is_ready` is stored last.
 */
struct record_row {
	_Atomic uint32_t is_ready;
	uint32_t kind, code, nsec;
	uint64_t calls, reading;
	int64_t number;
};

/* What follows a request: the words of struct asked_words, in rows that aren't
 * ready by themselves. */
struct words_row {
	_Atomic uint32_t is_ready; /* never */
	uint32_t unused;
	int64_t words[4];
};

enum { WORDS_ROWS = 6 };

/* Who reads a clock. The program's name is the kernel's, with zeros after it. */
enum { NAME_BYTES = 16 };
struct clock_reader {
	int32_t process, thread;
	char program[NAME_BYTES];
};

/* What follows a read if the record has readers, in a row that isn't ready by itself. */
struct reader_row {
	_Atomic uint32_t is_ready; /* never */
	uint32_t call; /* enum read_call */
	struct clock_reader reader;
	uint64_t unused;
};

/* The chunks that a process has mapped. A program has those of one record, and tkrun those of
 * each node's. */
struct chunks {
	_Atomic(struct record_row *) of[CHUNKS_MOST];
};

/* A request of adjtimex, and its reply. */
struct asked_words {
	int64_t modes, offset, freq, maxerror, esterror, status, constant, tick,
		sec, sub;
	struct {
		int64_t state, sec, sub, offset, freq, maxerror, esterror,
			status, constant, tick, tai;
	} reply;
};

/* Adds a row to the record. If it can't be written, it is counted as lost. */
void rows_add(struct machine *machine, const struct record_row *row);

/* Adds a read, and who made it if the record has readers. */
void rows_add_read(struct machine *machine, const struct record_row *row,
		   enum read_call call);

/* Notes the name of this program, for its reads. */
void rows_name_program(void);

/* Lets the reads of this thread of tkrun be those of a reader, or its own if it is NULL. */
void rows_read_for(const struct clock_reader *reader);

/* Returns the row after a read. */
static inline const struct reader_row *rows_reader(const struct record_row *row)
{
	return (const struct reader_row *)row + 1;
}

/* Says that the clocks are steered. */
void rows_steer(struct rows *rows);

/* Adds a request with its state and reply, or without them if it was refused. */
void rows_add_request(struct machine *machine, const struct record_row *row,
		      const struct timex *in, const struct timex *out,
		      uint32_t state);

/* Adds a request by its words. It steers the clocks. */
void rows_add_asked(struct machine *machine, const struct record_row *row,
		    const struct asked_words *asked);

/* Copies the words that follow a request's row. */
void rows_asked(const struct record_row *row, struct asked_words *asked);

#endif
