/* SPDX-License-Identifier: MIT OR Apache-2.0 */
/*
 * tkcore_session.h - the report of a script, one record at a time.
 *
 * A script lists commands and reads of clocks, and its report their results. docs/TKCORE.md
 * describes both. A session contains the clocks of a script. A call carries out one record, and
 * stores its lines of the report. These lines, one after the other, are the report that the program
 * tkcore writes.
 *
 *     struct tkc_session session = tkc_session_begin();
 *     struct tkc_text text;
 *
 *     while (read_line(&line, &length)) {
 *             if (tkc_session_record(&session, &text, line, length))
 *                     return print_fault(text.bytes, text.length);
 *             print(text.bytes, text.length);
 *     }
 *
 * Link with libtkcore_session.a. It calls memcpy, memmove, memset and memcmp of the program, and no
 * other function. It contains code for clocks, so it doesn't need libtkcore.a; a program may link
 * both.
 *
 * Records
 *   A record is a line of a script without its line feed. It contains no quote, carriage return or
 *   line feed, and the first one doesn't begin with the byte 0xef, which may begin a byte order
 *   mark. All other bytes are allowed. tkcore also takes scripts with quotes, and other line ends.
 *   An empty line is no record, and isn't counted. A session knows no size of a script, so it takes
 *   any number of bytes. It carries out the records before a fault; tkcore then reports only the
 *   fault.
 *
 * Values, pointers, contexts
 *   The rules of tkcore.h hold. A tkc_session is plain bytes, as a tkc_clock is. A record of
 *   `length` bytes, at most 2^63 - 1, is at an address that isn't NULL, also if `length` is 0. On
 *   x86-64 each call uses less than 2 kB of stack, and tkc_session_record less than 5 kB. A kernel
 *   must not link this archive, which is LLVM's and uses SSE registers.
 */
#ifndef TKC_SESSION_H
#define TKC_SESSION_H

#include "tkcore.h"

#ifdef __cplusplus
extern "C" {
#endif

/* The most bytes of the lines of one record, and of a fault's text. */
#define TKC_TEXT_ROOM 288

/* The codes of this header, with the calls that return them. Other codes are those of enum
 * tkc_code. */
enum tkc_session_code {
	/* The record contains a quote, a carriage return or a line feed; or it is the first one and
	 * begins with the byte 0xef. Both calls return it, but tkc_row_parse takes the byte. */
	TKC_NOT_PLAIN = 64,
	/* The session has counted 2^64 - 1 records. */
	TKC_TOO_MANY = 65,
	/* The first record doesn't begin with a keyword of an opening, or no clocks can begin with
	 * its values. */
	TKC_BAD_OPENING = 66,
	/* The keyword of a later record, or the name of a clock, is unknown. */
	TKC_BAD_WORD = 67,
	/* The record has too few or too many fields for its keyword. */
	TKC_BAD_FIELDS = 68,
	/* A field isn't a number, or the number is out of the range of its type. */
	TKC_BAD_NUMBER = 69
};

/* Lines of a report with their line feeds, or the text of a fault without one. A call writes
 * `length` and the first `length` bytes, and no other byte. No NUL ends the text. */
struct tkc_text {
	size_t length;
	uint8_t bytes[TKC_TEXT_ROOM];
};

/* The clocks of a script, the discipline that may steer them, and counts of records. */
struct tkc_session {
	uint64_t tkc_private[33];
};

/* The kinds of records after the first one. */
enum tkc_row_kind {
	/* A command: `update`, `set`, `step`, `freq`, `tick`, `tai`, `suspend` or `resume`. */
	TKC_ROW_COMMAND = 0,
	/* A read of a clock: `get`. */
	TKC_ROW_READ = 1,
	/* A change of counter: `counter`. */
	TKC_ROW_COUNTER = 2,
	/* A request: `adjtimex`. */
	TKC_ROW_REQUEST = 3
};

/* A record after the first one, parsed. Fields that its kind doesn't have are 0. The numbers may be
 * out of the ranges of the calls that take them. */
struct tkc_row {
	/* The record's reading of the present counter, in cycles: any number. */
	uint64_t reading;
	/* Of a command: an argument of tkc_clock_apply. */
	int64_t number;
	/* Of a read: the value that the record states, in ns. */
	uint64_t value;
	/* Of a change: the reading of the next counter, in cycles. */
	uint64_t first;
	/* One of enum tkc_row_kind. */
	uint32_t kind;
	/* Of a command: further arguments of tkc_clock_apply. */
	uint32_t command;
	uint32_t nsec;
	/* Of a read: one of enum tkc_clock_id. */
	uint32_t clock;
	/* Of a read: 1 if the record states a value. */
	uint32_t has_value;
	/* Of a change: the next counter, which tkc_counter_new makes of these numbers. */
	uint32_t bits;
	uint32_t mult;
	uint32_t shift;
	/* Of a request: an argument of tkc_adjtimex. */
	struct tkc_timex timex;
};

/* The layouts, which are the same on each processor. */
#if defined(__cplusplus) && __cplusplus >= 201103L
#define TKC_ASSERT(holds) static_assert(holds, #holds)
#elif defined(__STDC_VERSION__) && __STDC_VERSION__ >= 201112L
#define TKC_ASSERT(holds) _Static_assert(holds, #holds)
#endif
#ifdef TKC_ASSERT
TKC_ASSERT(sizeof(struct tkc_text) == 296 && offsetof(struct tkc_text, bytes) == 8);
TKC_ASSERT(sizeof(struct tkc_session) == 264);
TKC_ASSERT(offsetof(struct tkc_row, reading) == 0 && offsetof(struct tkc_row, number) == 8);
TKC_ASSERT(offsetof(struct tkc_row, value) == 16 && offsetof(struct tkc_row, first) == 24);
TKC_ASSERT(offsetof(struct tkc_row, kind) == 32 && offsetof(struct tkc_row, command) == 36);
TKC_ASSERT(offsetof(struct tkc_row, nsec) == 40 && offsetof(struct tkc_row, clock) == 44);
TKC_ASSERT(offsetof(struct tkc_row, has_value) == 48 && offsetof(struct tkc_row, bits) == 52);
TKC_ASSERT(offsetof(struct tkc_row, mult) == 56 && offsetof(struct tkc_row, shift) == 60);
TKC_ASSERT(offsetof(struct tkc_row, timex) == 64 && sizeof(struct tkc_row) == 272);
#undef TKC_ASSERT
#endif

/* Returns a session without clocks, whose next record is the first one of a script. */
struct tkc_session tkc_session_begin(void);

/*
 * Carries out the next record, which has `length` bytes, and stores its lines of the report: none
 * for an empty line; two if a `get` doesn't return the value that it states; otherwise one. A
 * command that the clocks refuse is no fault: its line is `no,..`.
 *
 * Returns a code, in this order, if the record has a fault. *session is then as it was, byte for
 * byte, and *text is the text of the fault. Except for the first two, tkcore writes it after
 * "tkcore: script: ".
 *   TKC_NOT_PLAIN    "not a plain line"
 *   TKC_TOO_MANY     "too many records"
 *   TKC_BAD_OPENING, TKC_BAD_WORD
 *                    the first record, or a later one, has another keyword
 *   TKC_BAD_FIELDS   the record has another number of fields than its keyword
 *   TKC_BAD_NUMBER, TKC_BAD_WORD
 *                    the first wrong field should be a number, or the name of a clock
 *   TKC_BAD_OPENING  no clocks can begin with the numbers of the first record
 *   TKC_BAD_BITS, TKC_BAD_SHIFT, TKC_BAD_MULT or TKC_BAD_ADJUST
 *                    the numbers of a change describe no counter, as tkc_counter_new tests them
 */
TKC_MUST_CHECK
uint32_t tkc_session_record(struct tkc_session *session, struct tkc_text *text, const void *record,
			    size_t length);

/* Returns the number of records so far, the first one included. */
TKC_PURE uint64_t tkc_session_records(const struct tkc_session *session);

/* Returns the number of lines `differs,..` so far. */
TKC_PURE uint64_t tkc_session_differences(const struct tkc_session *session);

/* Makes a snapshot of the clocks after the last record, as tkc_clock_snapshot does. Before the
 * first record it is of clocks with REALTIME 0 at reading 0 of a counter with 64 bits, mult 2^24
 * and shift 24. */
TKC_NONNULL
void tkc_session_snapshot(struct tkc_snapshot *out, const struct tkc_session *session);

/*
 * Stores the clocks with their counter, and returns the number of words that it stored:
 *   15   clocks that no discipline steers: tkc_clock_load takes the words
 *   33   steered clocks: tkc_ntp_load takes them
 *   0    none, before the first record
 * The words after them remain.
 */
TKC_MUST_CHECK
uint32_t tkc_session_save(uint64_t words[TKC_NTP_SAVED_WORDS], const struct tkc_session *session);

/*
 * Parses a record of `length` bytes that comes after the first one, and writes all bytes of *row.
 * `number` is the record's number, 2 or more, and has no effect on the row. An empty line is an
 * unknown keyword here, so skip it.
 *
 * Returns TKC_NOT_PLAIN, TKC_BAD_WORD, TKC_BAD_FIELDS, TKC_BAD_NUMBER or a code of a counter as
 * tkc_session_record does, and writes nothing then.
 */
TKC_MUST_CHECK
uint32_t tkc_row_parse(struct tkc_row *row, uint64_t number, const void *record, size_t length);

#ifdef __cplusplus
}
#endif

#endif /* TKC_SESSION_H */
