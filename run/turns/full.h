/* SPDX-License-Identifier: MIT OR Apache-2.0 */
/* full.h - waits of poll and the like for connections of TCP that are full by our count. */
#ifndef FULL_H
#define FULL_H

#include "turns.h"

#include <signal.h>

/* Waits until something is there, as a function says that looks, or for a span if there is one.
 * Returns 1, 0 after the span, or -1 with errno. */
int full_wait(bool (*is_there)(void *what), void *what, const struct timespec *span,
	      const sigset_t *mask, const void *caller);

/* Returns what such a call returns, by the result of its wait and by what it has found: the number
 * of files, or minus an error. */
int full_result(int result, int found);

/* Note whether a connection is full that this process has looked at. */
void full_note(int file, bool is_full);

/* Returns whether one ever was. */
bool full_was_noted(void);

/* Returns whether a connection was full since this was last asked for it and an epoll, whose kernel
 * reports no change when it isn't any more. */
bool full_is_over(int epoll, int file);

#endif
