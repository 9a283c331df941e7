/* SPDX-License-Identifier: MIT OR Apache-2.0 */
/* files.c - what a file is, and whether a thread has to wait for it. */
#define _GNU_SOURCE
#include "files.h"

#include "turns.h"
#include "clocks/connection.h"
#include "clocks/host.h"

#include <fcntl.h>
#include <limits.h>
#include <netinet/in.h>
#include <poll.h>
#include <sys/ioctl.h>
#include <sys/socket.h>
#include <sys/stat.h>
#include <sys/syscall.h>

/* Returns a number that a socket has, or -1. */
static int option_of(int file, int name)
{
	int value = -1;
	socklen_t size = sizeof(value);

	host_call(SYS_getsockopt, file, SOL_SOCKET, name, (long)&value, (long)&size, 0);
	return value;
}

static enum file_kind socket_kind(int file)
{
	int family = option_of(file, SO_DOMAIN);

	if (option_of(file, SO_TYPE) != SOCK_STREAM)
		return KIND_OTHER;
	if (family == AF_UNIX)
		return KIND_STREAM;
	return (family == AF_INET || family == AF_INET6) &&
			       option_of(file, SO_PROTOCOL) == IPPROTO_TCP
		       ? KIND_TCP
		       : KIND_OTHER;
}

enum file_kind file_kind(int file)
{
	struct stat status;

	if (host_call(SYS_fstat, file, (long)&status, 0, 0, 0, 0))
		return KIND_OTHER;
	switch (status.st_mode & S_IFMT) {
	case S_IFREG:
	case S_IFDIR:
	case S_IFBLK:
		return KIND_PLAIN;
	case S_IFIFO:
		return KIND_PIPE;
	case S_IFSOCK:
		return socket_kind(file);
	default:
		return KIND_OTHER;
	}
}

bool file_blocks(int file, int flags)
{
	return !(flags & MSG_DONTWAIT) &&
	       !(host_call(SYS_fcntl, file, F_GETFL, 0, 0, 0, 0) & O_NONBLOCK);
}

/* An error of the connection is found once only, so it is returned here. */
int file_await(int file, const void *caller)
{
	const int flags = MSG_PEEK | MSG_DONTWAIT;
	char byte;
	long there;
	int error = 0;

	for (;;) {
		there = host_call(SYS_recvfrom, file, (long)&byte, 1, flags, 0, 0);
		if (there != -EAGAIN)
			return there < 0 ? (int)-there : 0;
		if (REAL(recv)(file, &byte, 1, MSG_PEEK) < 0)
			error = errno;
		turn_need(caller);
		if (error)
			return error;
	}
}

/* Returns the events of a file among those that are wanted, and errors. */
static int events_of(int file, short wanted)
{
	struct pollfd now = { file, wanted, 0 };

	return host_call(SYS_poll, (long)&now, 1, 0, 0, 0, 0) == 1 ? now.revents : 0;
}

/* A pipe that is empty takes as much as it has. Otherwise it may have space for one part of
 * PIPE_BUF. */
static size_t pipe_room(int file)
{
	int unread = 1;
	long size;

	host_call(SYS_ioctl, file, FIONREAD, (long)&unread, 0, 0, 0);
	size = unread ? PIPE_BUF : host_call(SYS_fcntl, file, F_GETPIPE_SZ, 0, 0, 0, 0);
	return events_of(file, POLLOUT) && size > 0 ? (size_t)size : 0;
}

size_t file_room(int file, enum file_kind kind)
{
	struct receiver receiver;

	if (kind == KIND_PIPE)
		return pipe_room(file);
	if (kind != KIND_TCP || !connection_receiver(file, &receiver))
		return SIZE_MAX;
	return connection_room(&receiver);
}

bool file_is_full(int file)
{
	struct receiver receiver;

	return file_kind(file) == KIND_TCP && connection_receiver(file, &receiver) &&
	       !connection_has_room(&receiver) && !(events_of(file, 0) & (POLLERR | POLLHUP));
}

/* What a thread looks at that waits for space. */
struct place {
	int file;
	enum file_kind kind;
};

static bool has_room(void *what)
{
	const struct place *place = what;

	if (place->kind == KIND_TCP && file_is_full(place->file))
		return false;
	return events_of(place->file, POLLOUT);
}

bool file_await_room(int file, enum file_kind kind)
{
	struct place place = { file, kind };

	return turn_look(has_room, &place, NULL) != BLOCK_INTERRUPTED;
}

void kind_changed(enum file_kind kind, const void *caller)
{
	if (kind != KIND_PLAIN && turn_is_waited())
		turn_pass(caller);
	else
		turn_need(caller);
}

void file_changed(int file, const void *caller)
{
	kind_changed(turn_is_waited() ? file_kind(file) : KIND_PLAIN, caller);
}
