/* SPDX-License-Identifier: MIT OR Apache-2.0 */
/*
 * files.h - what a file is, and whether a thread has to wait for it.
 *
 * A thread takes bytes from a stream, and writes to a pipe or stream, at its turn. If it has to
 * wait, it waits without taking or writing any, and tries again when it has the turn.
 */
#ifndef FILES_H
#define FILES_H

#include "turns.h"

#include <stdbool.h>
#include <stddef.h>
#include <sys/types.h>

enum file_kind {
	KIND_PLAIN, /* of a disk: nobody waits for it */
	KIND_PIPE,
	KIND_STREAM, /* of AF_UNIX */
	KIND_TCP,
	KIND_OTHER,
};

enum file_kind file_kind(int file);

/* Returns whether a call with these flags of sockets waits. */
bool file_blocks(int file, int flags);

/* Waits until a stream has bytes, an end or an error, and takes none. Has the turn then. Returns 0
 * or an errno. */
int file_await(int file, const void *caller);

/* Returns how many bytes a connection of TCP or a pipe takes, as the turns count them. A connection
 * that isn't counted has space for SIZE_MAX. */
size_t file_room(int file, enum file_kind kind);

/* Returns whether a program must not find a connection of TCP writable, although the kernel
 * does. */
bool file_is_full(int file);

/* Waits until a file is worth another try to write, and has the turn then. Returns false if a
 * signal has interrupted that. */
bool file_await_room(int file, enum file_kind kind);

/* Counts a call after which other threads may find the file ready. They have found it when it
 * returns. */
void file_changed(int file, const void *caller);
void kind_changed(enum file_kind kind, const void *caller);

/* Defines a call by which something becomes ready for which other threads may wait. */
#define GIVES(type, name, parameters, arguments)        \
	EXPORT type name parameters                     \
	{                                               \
		type result;                            \
                                                        \
		turn_have(CALLER);                      \
		result = REAL(name) arguments;          \
		kind_changed(KIND_OTHER, CALLER);       \
		return result;                          \
	}

#endif
