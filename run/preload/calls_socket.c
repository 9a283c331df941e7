/* SPDX-License-Identifier: MIT OR Apache-2.0 */
/*
 * calls_socket.c - lets sockets of TCP send at once. Nagle's algorithm lets bytes wait for the
 * receiver's answer, which the host delays by up to 40 ms of the host's time. A counter of sleeps
 * would move on meanwhile, since all threads wait. So with such a counter each socket of TCP sends
 * at once, and a program that asks for TCP_NODELAY gets what it has set.
 */
#define _GNU_SOURCE
#include "calls_socket.h"

#include <netinet/in.h>
#include <netinet/tcp.h>
#include <string.h>
#include <sys/socket.h>

enum { FILES_MOST = 1 << 20, WORD_BITS = 64 };

/* The files for which the program has set TCP_NODELAY. */
static _Atomic uint64_t shown[FILES_MOST / WORD_BITS];

static bool is_shown(int file)
{
	return file >= 0 && file < FILES_MOST &&
	       atomic_load(&shown[file / WORD_BITS]) >> file % WORD_BITS & 1;
}

static void show(int file, bool is_set)
{
	uint64_t bit = UINT64_C(1) << file % WORD_BITS;

	if (file < 0 || file >= FILES_MOST)
		return;
	if (is_set)
		atomic_fetch_or(&shown[file / WORD_BITS], bit);
	else
		atomic_fetch_and(&shown[file / WORD_BITS], ~bit);
}

static bool has_no_delays(const struct machine *m)
{
	return m && m->shared->kind == COUNTER_SLEEPS;
}

/* Lets a socket send at once, if it is one of TCP. */
EXPORT int socket(int family, int type, int protocol)
{
	int file = REAL(socket)(family, type, protocol), one = 1, error = errno;

	if (file < 0 || !has_no_delays(machine()))
		return file;
	show(file, false);
	if (family == AF_INET || family == AF_INET6)
		REAL(setsockopt)(file, IPPROTO_TCP, TCP_NODELAY, &one,
				 sizeof(one));
	errno = error;
	return file;
}

/* An accepted socket has the options of the one that listens. */
EXPORT int accept(int listener, __SOCKADDR_ARG address,
		  socklen_t *restrict length)
{
	int file = REAL(accept)(listener, address, length);

	show(file, is_shown(listener));
	return file;
}

EXPORT int accept4(int listener, __SOCKADDR_ARG address,
		   socklen_t *restrict length, int flags)
{
	int file = REAL(accept4)(listener, address, length, flags);

	show(file, is_shown(listener));
	return file;
}

int set_no_delay(struct machine *m, int file, const void *value,
		 socklen_t length)
{
	int wanted, one = 1, result;

	if (!has_no_delays(m) || length < sizeof(wanted) || !host_can_read(value, sizeof(wanted)))
		return REAL(setsockopt)(file, IPPROTO_TCP, TCP_NODELAY, value,
					length);
	memcpy(&wanted, value, sizeof(wanted));
	result = REAL(setsockopt)(file, IPPROTO_TCP, TCP_NODELAY, &one,
				  sizeof(one));
	if (!result)
		show(file, wanted);
	return result;
}

EXPORT int getsockopt(int file, int level, int name, void *restrict value,
		      socklen_t *restrict length)
{
	int result = REAL(getsockopt)(file, level, name, value, length);
	int wanted = is_shown(file);

	if (!result && level == IPPROTO_TCP && name == TCP_NODELAY &&
	    has_no_delays(machine()))
		memcpy(value, &wanted, *length);
	return result;
}
