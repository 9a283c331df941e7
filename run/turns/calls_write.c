/* SPDX-License-Identifier: MIT OR Apache-2.0 */
/*
 * calls_write.c - the calls that write bytes. A thread writes to a pipe, a stream or a connection
 * what there is space for at its turn. If it waits for more, it does so in the table, not in the
 * kernel, which would go on as soon as a reader has taken some, and before the reader has taken
 * all.
 */
#define _GNU_SOURCE
#include "files.h"
#include "full.h"
#include "clocks/connection.h"
#include "clocks/host.h"

#include <limits.h>
#include <poll.h>
#include <sys/socket.h>
#include <sys/syscall.h>
#include <sys/uio.h>
#include <unistd.h>

enum {
	PARTS_MOST = 16, /* of one call of the kernel: a handler may have a small stack */
	KERNEL_TRIES = 1000, /* of a connection that has space by our count */
};

/* What a call has to write, and how much of it is written. */
struct rest {
	const struct msghdr *message;
	size_t part, offset; /* of the next byte */
	int file, flags;
	enum file_kind kind;
};

static size_t rest_bytes(const struct rest *rest)
{
	size_t bytes = 0;

	for (size_t i = rest->part; i < rest->message->msg_iovlen; i++)
		bytes += rest->message->msg_iov[i].iov_len;
	return bytes - rest->offset;
}

static void advance(struct rest *rest, size_t bytes)
{
	const struct msghdr *message = rest->message;

	rest->offset += bytes;
	while (rest->part < message->msg_iovlen &&
	       rest->offset >= message->msg_iov[rest->part].iov_len)
		rest->offset -= message->msg_iov[rest->part++].iov_len;
}

/* Makes a message of the next bytes, at most some. What comes with the message goes with its first
 * bytes. */
static struct msghdr next_bytes(const struct rest *rest, struct iovec parts[PARTS_MOST],
				size_t most)
{
	struct msghdr message = *rest->message;
	size_t from = rest->part, skip = rest->offset, count = 0;

	if (from || skip) {
		message.msg_control = NULL;
		message.msg_controllen = 0;
	}
	for (; count < PARTS_MOST && from < rest->message->msg_iovlen && most; count++, from++) {
		parts[count] = rest->message->msg_iov[from];
		parts[count].iov_base = (char *)parts[count].iov_base + skip;
		parts[count].iov_len -= skip;
		if (parts[count].iov_len > most)
			parts[count].iov_len = most;
		most -= parts[count].iov_len;
		skip = 0;
	}
	message.msg_iov = parts;
	message.msg_iovlen = count;
	return message;
}

/* Sends what there is space for. Returns the bytes, or -1 with errno. */
static ssize_t send_counted(const struct rest *rest, const struct receiver *receiver)
{
	struct iovec parts[PARTS_MOST];
	struct msghdr message = next_bytes(rest, parts, connection_room(receiver));
	ssize_t sent = -1;

	errno = EAGAIN;
	for (int i = 0; i < KERNEL_TRIES && message.msg_iovlen && sent < 0; i++) {
		sent = REAL(sendmsg)(rest->file, &message, rest->flags | MSG_DONTWAIT);
		if (sent >= 0)
			connection_settle(rest->file, receiver, (size_t)sent);
		else if (errno != EAGAIN)
			return sent;
		else
			host_call(SYS_sched_yield, 0, 0, 0, 0, 0, 0);
	}
	return sent;
}

/* Writes to a pipe what there is space for, so that the call doesn't wait. Few bytes are written at
 * once. */
static ssize_t write_pipe(const struct rest *rest)
{
	size_t room = file_room(rest->file, KIND_PIPE);
	const struct msghdr *whole = rest->message;
	struct iovec parts[PARTS_MOST];
	struct msghdr next;

	errno = EAGAIN;
	if (!room)
		return -1;
	if (!rest->part && !rest->offset && rest_bytes(rest) <= PIPE_BUF)
		return REAL(writev)(rest->file, whole->msg_iov, (int)whole->msg_iovlen);
	next = next_bytes(rest, parts, room);
	return REAL(writev)(rest->file, next.msg_iov, (int)next.msg_iovlen);
}

/* Writes what there is space for. Returns the bytes, or -1 with errno. */
static ssize_t write_some(const struct rest *rest)
{
	struct iovec parts[PARTS_MOST];
	struct receiver receiver;
	struct msghdr next;

	if (rest->kind == KIND_PIPE)
		return write_pipe(rest);
	if (rest->kind == KIND_TCP && rest_bytes(rest) &&
	    connection_receiver(rest->file, &receiver))
		return send_counted(rest, &receiver);
	next = next_bytes(rest, parts, SSIZE_MAX);
	return REAL(sendmsg)(rest->file, &next, rest->flags | MSG_DONTWAIT);
}

/* Returns the error that a call of the kernel's finds when it has waited, or 0. Another call finds
 * it, too, except for AF_UNIX. */
static int error_after_wait(const struct rest *rest)
{
	int error = 0;
	socklen_t size = sizeof(error);

	if (rest->kind == KIND_STREAM)
		host_call(SYS_getsockopt, rest->file, SOL_SOCKET, SO_ERROR, (long)&error,
			  (long)&size, 0);
	return error;
}

/* Returns whether the next call would find an error: one that has written a part returns that. */
static bool has_failed(const struct rest *rest)
{
	struct pollfd now = { rest->file, 0, 0 };

	return rest->kind != KIND_PIPE && host_call(SYS_poll, (long)&now, 1, 0, 0, 0, 0) == 1 &&
	       now.revents & (POLLERR | POLLHUP);
}

/* Writes all of it, with waits. Returns the bytes, or -1 with errno. */
static ssize_t write_all(struct rest *rest, const void *caller)
{
	ssize_t done = 0, some;
	bool is_whole = false;

	while (!is_whole && !(done && has_failed(rest))) {
		some = write_some(rest);
		if (some < 0 && errno == EAGAIN) {
			errno = file_await_room(rest->file, rest->kind) ? error_after_wait(rest)
									: EINTR;
			if (!errno)
				continue;
		}
		if (some < 0)
			return done ? done : -1;
		advance(rest, (size_t)some);
		done += some;
		is_whole = !rest_bytes(rest);
		rest->flags |= MSG_NOSIGNAL;
		kind_changed(rest->kind, caller);
	}
	return done;
}

/* Returns whether sends have a limit of the host's time. */
static bool has_limit(int file)
{
	struct timeval limit = { 0 };
	socklen_t size = sizeof(limit);

	host_call(SYS_getsockopt, file, SOL_SOCKET, SO_SNDTIMEO, (long)&limit, (long)&size, 0);
	return limit.tv_sec || limit.tv_usec;
}

/* Writes at this thread's turns. Returns false if the kernel's call is to be made: it doesn't wait,
 * or it isn't one for streams. */
static bool write_at_turns(int file, const struct msghdr *message, int flags, const void *caller,
			   ssize_t *result)
{
	struct rest rest = { .message = message, .file = file, .flags = flags };
	bool blocks;

	if (!turn_is_own(caller) || message->msg_iovlen > IOV_MAX || flags & MSG_OOB ||
	    !host_can_read(message->msg_iov, message->msg_iovlen * sizeof(*message->msg_iov)))
		return false; /* if it isn't there, the kernel's call returns the error */
	rest.kind = file_kind(file);
	blocks = file_blocks(file, flags);
	if (rest.kind == KIND_PLAIN || rest.kind == KIND_OTHER ||
	    (blocks ? rest.kind != KIND_PIPE && has_limit(file) : rest.kind != KIND_TCP))
		return false;
	turn_have(caller);
	if (blocks) {
		*result = write_all(&rest, caller);
		return true;
	}
	*result = write_some(&rest);
	full_note(file, file_is_full(file));
	kind_changed(rest.kind, caller);
	return true;
}

#define WRITE(name, parameters, arguments, flags, ...)                             \
	EXPORT ssize_t name parameters                                              \
	{                                                                           \
		const struct msghdr whole = __VA_ARGS__;                            \
		ssize_t result;                                                     \
                                                                                    \
		if (write_at_turns(file, &whole, flags, CALLER, &result))           \
			return result;                                              \
		turn_have(CALLER);                                                  \
		result = REAL(name) arguments;                                      \
		file_changed(file, CALLER);                                         \
		return result;                                                      \
	}

/* Returns a message, or one that isn't written at turns: it can't be read. */
static struct msghdr message_at(const struct msghdr *message)
{
	return host_can_read(message, sizeof(*message))
		       ? *message
		       : (struct msghdr){ .msg_iovlen = IOV_MAX + 1 };
}

#define BYTES { .msg_iov = &(struct iovec){ (void *)bytes, size }, .msg_iovlen = 1 }

WRITE(write, (int file, const void *bytes, size_t size), (file, bytes, size), 0, BYTES)
WRITE(writev, (int file, const struct iovec *parts, int count), (file, parts, count), 0,
      { .msg_iov = (struct iovec *)parts, .msg_iovlen = (size_t)count })
WRITE(send, (int file, const void *bytes, size_t size, int flags), (file, bytes, size, flags),
      flags, BYTES)
WRITE(sendto,
      (int file, const void *bytes, size_t size, int flags, const struct sockaddr *name,
       socklen_t length),
      (file, bytes, size, flags, name, length), flags,
      { .msg_name = (void *)name,
	.msg_namelen = length,
	.msg_iov = &(struct iovec){ (void *)bytes, size },
	.msg_iovlen = 1 })
WRITE(sendmsg, (int file, const struct msghdr *message, int flags), (file, message, flags), flags,
      message_at(message))
