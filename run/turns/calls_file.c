/* SPDX-License-Identifier: MIT OR Apache-2.0 */
/* calls_file.c - the calls that connect sockets, lock files and close them. */
#define _GNU_SOURCE
#include "files.h"

#include <fcntl.h>
#include <stdarg.h>
#include <stdio.h>
#include <sys/file.h>
#include <sys/sendfile.h>
#include <sys/socket.h>
#include <unistd.h>

/* Defines a call by which a file may become ready. What other threads have waited for, they have
 * found when it returns. */
#define CHANGES(type, name, parameters, arguments)     \
	EXPORT type name parameters                    \
	{                                              \
		type result;                           \
                                                       \
		turn_have(CALLER);                     \
		result = REAL(name) arguments;         \
		file_changed(file, CALLER);            \
		return result;                         \
	}

CHANGES(int, sendmmsg, (int file, struct mmsghdr *messages, unsigned int count, int flags),
	(file, messages, count, flags))
CHANGES(ssize_t, sendfile, (int file, int from, off_t *at, size_t size), (file, from, at, size))
CHANGES(ssize_t, sendfile64, (int file, int from, off64_t *at, size_t size), (file, from, at, size))
CHANGES(int, recvmmsg,
	(int file, struct mmsghdr *messages, unsigned int count, int flags, struct timespec *span),
	(file, messages, count, flags, span))
CHANGES(int, connect, (int file, const struct sockaddr *name, socklen_t length),
	(file, name, length))
CHANGES(int, accept, (int file, struct sockaddr *restrict name, socklen_t *restrict length),
	(file, name, length))
CHANGES(int, accept4,
	(int file, struct sockaddr *restrict name, socklen_t *restrict length, int flags),
	(file, name, length, flags))
CHANGES(int, shutdown, (int file, int how), (file, how))

/* A thread that waits for a lock of a file has it when a call that unlocks it returns. So does
 * closing the file. */

GIVES(int, close, (int file), (file))
GIVES(int, dup2, (int from, int to), (from, to))
GIVES(int, dup3, (int from, int to, int flags), (from, to, flags))
GIVES(int, fclose, (FILE * file), (file))
GIVES(int, flock, (int file, int operation), (file, operation))
GIVES(int, lockf, (int file, int command, off_t length), (file, command, length))
GIVES(int, lockf64, (int file, int command, off64_t length), (file, command, length))

static bool is_lock(int command)
{
	return command == F_SETLK || command == F_SETLKW || command == F_OFD_SETLK ||
	       command == F_OFD_SETLKW;
}

/* The other commands neither wait nor let others go on. An argument that isn't there may have any
 * value. */
#define CONTROL(name)                                            \
	EXPORT int name(int file, int command, ...)              \
	{                                                        \
		va_list list;                                    \
		void *argument;                                  \
		int result;                                      \
                                                                 \
		va_start(list, command);                         \
		argument = va_arg(list, void *);                 \
		va_end(list);                                    \
		if (is_lock(command))                            \
			turn_have(CALLER);                       \
		result = REAL(name)(file, command, argument);    \
		if (is_lock(command))                            \
			kind_changed(KIND_OTHER, CALLER);        \
		return result;                                   \
	}

#undef fcntl
CONTROL(fcntl)
CONTROL(fcntl64)
