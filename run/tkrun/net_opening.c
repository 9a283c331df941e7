/* SPDX-License-Identifier: MIT OR Apache-2.0 */
/* net_opening.c - connections to servers. */
#define _GNU_SOURCE
#include "net.h"

#include "clocks/connection.h"
#include "grant.h"

#include <errno.h>
#include <netinet/tcp.h>
#include <poll.h>
#include <stdlib.h>
#include <string.h>
#include <unistd.h>

enum { RECEIVE_BYTES = 131072 };

struct opening {
	struct endpoint server;
	int file; /* or -1 */
};

int net_make_socket(struct address address)
{
	int file = net_make(address, SOCK_STREAM | SOCK_NONBLOCK);
	int one = 1, bytes = turns_are_on() ? CONNECTION_RECEIVE_BYTES : RECEIVE_BYTES;

	setsockopt(file, SOL_SOCKET, SO_REUSEADDR, &one, sizeof(one));
	setsockopt(file, SOL_SOCKET, SO_REUSEPORT, &one, sizeof(one));
	setsockopt(file, SOL_SOCKET, SO_RCVBUF, &bytes, sizeof(bytes));
	setsockopt(file, IPPROTO_TCP, TCP_NODELAY, &one, sizeof(one));
	return file;
}

int net_state_of(int file, int millis)
{
	struct pollfd wait = { file, POLLOUT, 0 };
	int error = EINPROGRESS;
	socklen_t length = sizeof(error);

	if (poll(&wait, 1, millis) > 0)
		getsockopt(file, SOL_SOCKET, SO_ERROR, &error, &length);
	return error;
}

static bool gets(const struct listed *found, const void *wanted)
{
	return net_gets(found, wanted);
}

bool opening_is_heard(const struct endpoint *server)
{
	const struct port port = { .protocol = IPPROTO_TCP, .states = 1 << TCP_LISTEN,
				   .port = server->port };

	return sockets_find(&port, gets, server) != FOUND_NONE;
}

/* tkrun's end has the client's port, or another one if the client's doesn't share it. */
struct opening *opening_begin(const struct endpoint *client, const struct endpoint *server)
{
	struct opening *opening = net_allocate(sizeof(*opening));
	const struct endpoint other = { client->address, 0 };

	*opening = (struct opening){ .server = *server, .file = net_make_socket(server->address) };
	if (net_call_with(bind, opening->file, client))
		net_call_with(bind, opening->file, &other);
	return opening;
}

/* Tries to connect. Returns an errno. If the server has no room for another connection, the kernel
 * would try again by the host's time. So that is ended, and the socket keeps its name. */
static int try_once(const struct opening *opening)
{
	const struct sockaddr none = { .sa_family = AF_UNSPEC };
	int error = 0;

	if (net_call_with(connect, opening->file, &opening->server))
		error = errno == EINPROGRESS ? net_state_of(opening->file, 0) : errno;
	if (error == EINPROGRESS)
		connect(opening->file, &none, sizeof(none));
	return error;
}

int opening_try(struct opening *opening, int *file)
{
	int error = try_once(opening);

	*file = -1;
	if (error == EINPROGRESS)
		return error;
	if (error)
		close(opening->file);
	else
		*file = opening->file;
	opening->file = -1;
	return error;
}

void opening_end(struct opening *opening)
{
	if (opening->file >= 0)
		close(opening->file);
	free(opening);
}
