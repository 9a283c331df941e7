/* SPDX-License-Identifier: MIT OR Apache-2.0 */
/*
 * calls_socket.c - the sizes of a connection of TCP, which has space for CONNECTION_BYTES. The
 * kernel changes its own sizes by times that it measures. So a program neither sets nor sees them.
 */
#define _GNU_SOURCE
#include "files.h"
#include "clocks/connection.h"
#include "clocks/host.h"

#include <netinet/in.h>
#include <string.h>
#include <sys/socket.h>

/* Returns whether a program asks for such a size. */
static bool is_size(int file, int level, int name, const void *caller)
{
	return level == SOL_SOCKET && (name == SO_SNDBUF || name == SO_RCVBUF) &&
	       turn_is_for(caller) && file_kind(file) == KIND_TCP;
}

/* An accepted socket has the size of the one that listens. */
EXPORT int socket(int family, int type, int protocol)
{
	int file = REAL(socket)(family, type, protocol), error = errno;
	int size = CONNECTION_RECEIVE_BYTES;

	if (file >= 0 && turn_is_for(CALLER) && file_kind(file) == KIND_TCP)
		REAL(setsockopt)(file, SOL_SOCKET, SO_RCVBUF, &size, sizeof(size));
	errno = error;
	return file;
}

EXPORT int setsockopt(int file, int level, int name, const void *value, socklen_t length)
{
	if (length >= sizeof(int) && value && is_size(file, level, name, CALLER))
		return 0;
	return REAL(setsockopt)(file, level, name, value, length);
}

/* The kernel doubles a size that is set. */
EXPORT int getsockopt(int file, int level, int name, void *restrict value,
		      socklen_t *restrict length)
{
	int result = REAL(getsockopt)(file, level, name, value, length);
	int size = 2 * CONNECTION_BYTES;

	if (!result && *length == sizeof(size) && is_size(file, level, name, CALLER))
		memcpy(value, &size, sizeof(size));
	return result;
}
