/* SPDX-License-Identifier: MIT OR Apache-2.0 */
/*
 * calls_read_file.c - the calls that read bytes.
 *
 * A thread takes bytes at its turn. If there are none in a stream, it waits without taking any, and
 * looks again when it has the turn. Of a pipe it takes the first bytes when it wakes, and more at
 * its turn.
 *
 * What the kernel has stored of /dev/random and /dev/urandom is overwritten by bytes of getrandom,
 * which tkrun answers by the seed.
 */
#define _GNU_SOURCE
#include "files.h"
#include "clocks/host.h"

#include <poll.h>
#include <stdio.h>
#include <sys/socket.h>
#include <sys/stat.h>
#include <sys/syscall.h>
#include <sys/sysmacros.h>
#include <sys/uio.h>
#include <unistd.h>

#undef fread_unlocked

/* Returns whether a file is one of these devices. */
static bool is_random(int file)
{
	struct stat status;

	return !host_call(SYS_fstat, file, (long)&status, 0, 0, 0, 0) &&
	       S_ISCHR(status.st_mode) && major(status.st_rdev) == 1 &&
	       (minor(status.st_rdev) == 8 || minor(status.st_rdev) == 9);
}

static void fill(void *bytes, size_t size)
{
	char *next = bytes, *end = next + size;

	while (next < end) {
		long done = host_call(SYS_getrandom, (long)next, end - next, 0, 0, 0, 0);

		if (done < 0 && done != -EINTR)
			return;
		next += done < 0 ? 0 : done;
	}
}

static void replace(int file, void *bytes, ssize_t size)
{
	if (size > 0 && turn_is_found(NULL) && is_random(file))
		fill(bytes, (size_t)size);
}

/* Reads more bytes of a pipe, if there are some. At an error the next call finds it. */
static ssize_t read_more(int file, void *bytes, size_t size)
{
	struct pollfd there = { file, POLLIN, 0 };
	long more;

	if (!size || host_call(SYS_poll, (long)&there, 1, 0, 0, 0, 0) != 1 ||
	    !(there.revents & POLLIN) || there.revents & (POLLERR | POLLNVAL))
		return 0;
	more = host_call(SYS_read, file, (long)bytes, (long)size, 0, 0, 0);
	return more > 0 ? more : 0;
}

/* A call that reads bytes. */
struct reading {
	char *bytes;
	size_t most;
	int file, flags;
	enum file_kind kind;
	const void *caller;
};

/* Waits for a stream's bytes. Returns false if the call has failed. */
static bool begin_read(struct reading *reading)
{
	int error = 0;

	turn_have(reading->caller);
	reading->kind = file_kind(reading->file);
	if ((reading->kind == KIND_STREAM || reading->kind == KIND_TCP) && reading->most &&
	    !(reading->flags & (MSG_OOB | MSG_ERRQUEUE)) &&
	    file_blocks(reading->file, reading->flags))
		error = file_await(reading->file, reading->caller);
	if (error)
		errno = error;
	return !error;
}

/* Reads the rest of a stream for a call that waits for all of it. */
static ssize_t read_all(const struct reading *reading, ssize_t size)
{
	ssize_t more = size;

	while (more > 0 && (size_t)size < reading->most) {
		kind_changed(reading->kind, reading->caller);
		if (file_await(reading->file, reading->caller))
			return size;
		more = host_call(SYS_recvfrom, reading->file, (long)(reading->bytes + size),
				 (long)(reading->most - (size_t)size), MSG_DONTWAIT, 0, 0);
		size += more > 0 ? more : 0;
	}
	return size;
}

/* Returns how many bytes a call has read when it has the turn. A thread that waits for a pipe takes
 * what the first writer has written, and gets the rest here. */
static ssize_t end_read(const struct reading *reading, ssize_t size)
{
	bool is_stream = reading->kind == KIND_STREAM || reading->kind == KIND_TCP;

	if (is_stream && reading->flags & MSG_WAITALL && !(reading->flags & MSG_PEEK) && size > 0 &&
	    file_blocks(reading->file, reading->flags))
		size = read_all(reading, size);
	if (reading->kind == KIND_PIPE && turn_need(reading->caller) && size > 0)
		size += read_more(reading->file, reading->bytes + size,
				  reading->most - (size_t)size);
	kind_changed(reading->kind, reading->caller);
	return size;
}

#define READ(name, parameters, arguments)                                            \
	EXPORT ssize_t name parameters                                                \
	{                                                                             \
		struct reading reading = { bytes, most, file, 0, KIND_OTHER, CALLER };  \
		bool is_own = turn_is_own(CALLER);                                    \
		ssize_t size;                                                         \
                                                                                      \
		if (is_own && !begin_read(&reading))                                  \
			return -1;                                                    \
		size = REAL(name) arguments;                                          \
		replace(file, bytes, size);                                           \
		return is_own ? end_read(&reading, size) : size;                      \
	}

READ(read, (int file, void *bytes, size_t most), (file, bytes, most))
extern ssize_t __read_chk(int file, void *bytes, size_t most, size_t room);
READ(__read_chk, (int file, void *bytes, size_t most, size_t room), (file, bytes, most, room))

/* Returns the flags of a call that takes what is there. */
static int flags_of(const struct reading *reading)
{
	bool is_stream = reading->kind == KIND_STREAM || reading->kind == KIND_TCP;

	return is_stream ? reading->flags | MSG_DONTWAIT : reading->flags;
}

#define RECEIVE(name, parameters, arguments)                                             \
	EXPORT ssize_t name parameters                                                    \
	{                                                                                 \
		struct reading reading = { bytes, most, file, flags, KIND_OTHER, CALLER };  \
		bool is_own = turn_is_own(CALLER);                                        \
		ssize_t size;                                                             \
                                                                                          \
		if (is_own && !begin_read(&reading))                                      \
			return -1;                                                        \
		flags = is_own ? flags_of(&reading) : flags;                              \
		size = REAL(name) arguments;                                              \
		return is_own ? end_read(&reading, size) : size;                          \
	}

RECEIVE(recv, (int file, void *bytes, size_t most, int flags), (file, bytes, most, flags))
RECEIVE(recvfrom,
	(int file, void *restrict bytes, size_t most, int flags, struct sockaddr *restrict name,
	 socklen_t *restrict length),
	(file, bytes, most, flags, name, length))
extern ssize_t __recv_chk(int file, void *bytes, size_t most, size_t room, int flags);
RECEIVE(__recv_chk, (int file, void *bytes, size_t most, size_t room, int flags),
	(file, bytes, most, room, flags))
extern ssize_t __recvfrom_chk(int file, void *bytes, size_t most, size_t room, int flags,
			      struct sockaddr *name, socklen_t *length);
RECEIVE(__recvfrom_chk,
	(int file, void *bytes, size_t most, size_t room, int flags, struct sockaddr *name,
	 socklen_t *length),
	(file, bytes, most, room, flags, name, length))

/* Those with several parts wait for the first bytes of a stream only. */

EXPORT ssize_t recvmsg(int file, struct msghdr *message, int flags)
{
	struct reading reading = { NULL, 1, file, flags, KIND_OTHER, CALLER };
	ssize_t size;

	if (turn_is_own(CALLER) && !begin_read(&reading))
		return -1;
	size = REAL(recvmsg)(file, message, flags);
	kind_changed(reading.kind, CALLER);
	return size;
}

#define READ_AT(name, parameters, arguments)           \
	EXPORT ssize_t name parameters                 \
	{                                              \
		ssize_t size = REAL(name) arguments;   \
                                                       \
		replace(file, bytes, size);            \
		turn_need(CALLER);                     \
		return size;                           \
	}

READ_AT(pread, (int file, void *bytes, size_t most, off_t at), (file, bytes, most, at))
READ_AT(pread64, (int file, void *bytes, size_t most, off64_t at), (file, bytes, most, at))

EXPORT ssize_t readv(int file, const struct iovec *parts, int count)
{
	struct reading reading = { NULL, 1, file, 0, KIND_OTHER, CALLER };
	ssize_t size, left;

	if (turn_is_own(CALLER) && !begin_read(&reading))
		return -1;
	left = size = REAL(readv)(file, parts, count);
	for (int i = 0; left > 0 && i < count; i++) {
		ssize_t part = left < (ssize_t)parts[i].iov_len ? left : (ssize_t)parts[i].iov_len;

		replace(file, parts[i].iov_base, part);
		left -= part;
	}
	kind_changed(reading.kind, CALLER);
	return size;
}

/* A part of an item may have been read at the end, but not of these devices. */
static void replace_items(FILE *file, void *bytes, size_t size, size_t count)
{
	if (count)
		replace(fileno(file), bytes, (ssize_t)(size * count));
}

EXPORT size_t fread(void *restrict bytes, size_t size, size_t count, FILE *restrict file)
{
	size_t done = REAL(fread)(bytes, size, count, file);

	replace_items(file, bytes, size, done);
	kind_changed(KIND_OTHER, CALLER);
	return done;
}

EXPORT size_t fread_unlocked(void *restrict bytes, size_t size, size_t count, FILE *restrict file)
{
	size_t done = REAL(fread_unlocked)(bytes, size, count, file);

	replace_items(file, bytes, size, done);
	kind_changed(KIND_OTHER, CALLER);
	return done;
}

#define GET(name, parameters, arguments)               \
	EXPORT int name parameters                     \
	{                                              \
		int result = REAL(name) arguments;     \
		unsigned char byte = (unsigned char)result; \
                                                       \
		if (result != EOF)                     \
			replace(fileno(file), &byte, 1); \
		turn_need(CALLER);                     \
		return result == EOF ? EOF : byte;     \
	}

GET(fgetc, (FILE * file), (file))
GET(getc, (FILE * file), (file))
