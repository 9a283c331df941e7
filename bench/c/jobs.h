/* SPDX-License-Identifier: MIT OR Apache-2.0 */
/* The jobs that calls.c times. library.c does them by calls of the library, by_hand.c by the
 * hand-written clocks of plain.h: a program is calls.c with one of the two. Each job goes once over
 * a list of readings. */
#ifndef JOBS_H
#define JOBS_H

#include <stddef.h>
#include <stdint.h>

enum { OPENED_AT = 1000, HZ = 24000000, MULT = 699050667, SHIFT = 24, REAL = 1700000000 };

struct list {
	const uint64_t *stamps;
	uint64_t *out;
	size_t count;
};

/* Opens clocks over a counter of 64 bits at HZ cycles per second. */
void open_clocks(void);

/* MONOTONIC at each reading: seconds ^ nanoseconds. The second job reads ten words each time, the
 * third one keeps the clock's line. */
void get_each(struct list *list);
void get_words_each(struct list *list);
void get_line_each(struct list *list);
/* One update per item, a microsecond apart; then words of the clocks. */
void update_each(struct list *list);
/* MONOTONIC in ns: with a test of each stamp, and without a test (in the hand-written program); and
 * a copy of the same bytes. */
void convert_all(struct list *list);
void convert_untested(struct list *list);
void copy_all(struct list *list);

/* Whether copy_all copies. Its check then differs from the library's. */
extern const int copies;

_Noreturn void fail(const char *what);

#endif
