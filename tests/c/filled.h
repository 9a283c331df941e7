/* SPDX-License-Identifier: MIT OR Apache-2.0 */
/* What the files of filled.c share. */
#ifndef FILLED_H
#define FILLED_H

#include "check.h"

#include <string.h>

/* What fills a struct, and the struct's size. */
struct filled {
	const char *name;
	void (*fill)(void *out);
	size_t size;
};

/* A list of them, which ends with a row without a name. */
extern const struct filled filled_clocks[], filled_pages[], filled_ntp[];

/* Leaves stale bytes on the stack, where the next call has its frame. */
void leave_stale_stack(void);

/* Makes a call that must succeed, over a stale stack. */
#define made(call) \
	do { \
		leave_stale_stack(); \
		check((call) == TKC_OK); \
	} while (0)

/* Makes a call without a code, over a stale stack. */
#define make(call) \
	do { \
		leave_stale_stack(); \
		call; \
	} while (0)

struct tkc_counter filled_counter(void);
void fill_snapshot(void *out);
void fill_commanded(void *out);

#endif
