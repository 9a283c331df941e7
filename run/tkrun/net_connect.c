/* SPDX-License-Identifier: MIT OR Apache-2.0 */
/*
 * net_connect.c - connects sockets of TCP. The packets of a connection, that to the server and the
 * answer, take the time of the link, and are sent again if they are lost.
 *
 * Meanwhile the client's socket must look as if it were connecting. So it connects to a guard: a
 * listening socket of tkrun that drops its packets, since the guard already has one connection, and
 * has no room for another. When the answer arrives, tkrun connects another
 * socket, with the guard's address, to the client's socket. TCP lets two sockets connect to each
 * other at once. The server accepts when the client's last packet has arrived.
 */
#define _GNU_SOURCE
#include "net.h"
#include "net/relays.h"

#include <errno.h>
#include <fcntl.h>
#include <netinet/tcp.h>
#include <poll.h>
#include <stdlib.h>
#include <string.h>
#include <unistd.h>

enum {
	ATTEMPTS = 7, /* 1, 2, 4, .. s after each other, as Linux makes them */
	WAIT_MILLIS = 1000, /* for the kernel, which needs none */
};

struct connection {
	struct link *there, *back;
	struct endpoint server, guard_name;
	int client; /* the program's socket */
	int answer; /* gets the errno, or -1: the socket doesn't block */
	int guard, filler; /* and its connection */
	int error; /* of the server's node */
	unsigned int attempts;
	size_t flights;
	bool is_done;
};

struct packet {
	struct flight flight;
	struct connection *connection;
};

static void send_answer(int *answer, int error)
{
	if (*answer >= 0) {
		send(*answer, &error, sizeof(error), MSG_NOSIGNAL | MSG_DONTWAIT);
		close(*answer);
	}
	*answer = -1;
}

static void close_file(int *file)
{
	if (*file >= 0)
		close(*file);
	*file = -1;
}

static void close_files(struct connection *connection)
{
	close_file(&connection->guard);
	close_file(&connection->filler);
	close_file(&connection->client);
}

/* Frees a connection that is done when no packet of it is on its way. */
static void let_go(struct connection *connection)
{
	if (connection->flights || !connection->is_done)
		return;
	free(connection);
}

/* Opens the guard, which stands for the server. */
static bool open_guard(struct connection *connection)
{
	const struct link_options *link = &connection->there->options;
	uint16_t port = connection->server.port;
	bool is_four = address_family(connection->server.address) == FAMILY_FOUR;
	const struct endpoint name = {
		is_four ? address_of_four(relay_address(link->to, port)) : RELAY_SIX, 0
	};

	connection->guard = net_make_socket(name.address);
	if (net_call_with(bind, connection->guard, &name) || listen(connection->guard, 0))
		return false;
	connection->guard_name = net_name(connection->guard);
	if (!is_four)
		net_note_relay(link, connection->guard_name.port, connection->client, port);
	connection->filler = net_make_socket(name.address);
	if (net_call_with(connect, connection->filler, &connection->guard_name) &&
	    errno != EINPROGRESS)
		return false;
	return !net_state_of(connection->filler, WAIT_MILLIS);
}

/* Returns the address of the client's node. */
static struct address own_address(const struct connection *connection)
{
	return net_own_address(connection->there->options.from, connection->server.address);
}

/* Lets the client's socket begin to connect to the guard, without a wait. Returns an errno. */
static int begin_client(struct connection *connection, int flags)
{
	const struct endpoint own = { own_address(connection), 0 };
	int error;

	if (!net_name(connection->client).port)
		net_call_with(bind, connection->client, &own);
	fcntl(connection->client, F_SETFL, flags | O_NONBLOCK);
	error = net_call_with(connect, connection->client, &connection->guard_name) ? errno : 0;
	fcntl(connection->client, F_SETFL, flags);
	return error;
}

/* Connects tkrun's end to the client's socket. Returns its file, or -1. */
static int connect_client(const struct connection *connection)
{
	const struct endpoint name = net_name(connection->client);
	int file = net_make_socket(connection->guard_name.address);

	if (!net_call_with(bind, file, &connection->guard_name) &&
	    (!net_call_with(connect, file, &name) || errno == EINPROGRESS) &&
	    !net_state_of(file, WAIT_MILLIS))
		return file;
	close(file);
	return -1;
}

/* Returns whether a program still waits for the answer: a signal may have interrupted it. */
static bool is_awaited(int answer)
{
	struct pollfd file = { answer, 0, 0 };

	return answer >= 0 && poll(&file, 1, 0) == 0;
}

/* Ends the attempt with an errno. The kernel would return another one. */
static void fail_client(struct connection *connection, int error)
{
	bool is_told = is_awaited(connection->answer);
	int mark = FAILURE | error;

	if (!is_told)
		setsockopt(connection->client, IPPROTO_TCP, TCP_USER_TIMEOUT, &mark, sizeof(mark));
	shutdown(connection->client, SHUT_RDWR);
	if (is_told)
		net_state_of(connection->client, 0);
	send_answer(&connection->answer, error);
}

/* The server sees the client's port, which the client's socket must share meanwhile, and the
 * address of its node. */
static struct opening *begin_opening(const struct connection *connection)
{
	const struct endpoint name = { own_address(connection), net_name(connection->client).port };
	struct opening *opening;
	int one = 1, before = 0;
	socklen_t length = sizeof(before);

	getsockopt(connection->client, SOL_SOCKET, SO_REUSEADDR, &before, &length);
	setsockopt(connection->client, SOL_SOCKET, SO_REUSEADDR, &one, sizeof(one));
	opening = opening_begin(&name, &connection->server);
	setsockopt(connection->client, SOL_SOCKET, SO_REUSEADDR, &before, sizeof(before));
	return opening;
}

/* The client gets the server's answer, or none. */
static void finish(struct connection *connection, int error, uint64_t now)
{
	int file = error ? -1 : connect_client(connection);

	connection->is_done = true;
	if (file < 0)
		fail_client(connection, error ? error : ECONNABORTED);
	else
		stream_open(file, begin_opening(connection), connection->there->options.from,
			    connection->there->options.to, now);
	send_answer(&connection->answer, 0);
	close_files(connection);
}

static void begin_packet(struct connection *connection, struct link *link, uint64_t arrival,
			 void (*arrive)(struct flight *, uint64_t))
{
	struct packet *packet = net_allocate(sizeof(*packet));

	packet->connection = connection;
	packet->flight.arrive = arrive;
	connection->flights++;
	flight_begin(&packet->flight, link, arrival);
}

/* Returns the connection of a packet that has arrived. */
static struct connection *take_packet(struct flight *flight)
{
	struct connection *connection = ((struct packet *)flight)->connection;

	connection->flights--;
	free(flight);
	return connection;
}

static void arrive_at_client(struct flight *flight, uint64_t now)
{
	struct connection *connection = take_packet(flight);

	if (!connection->is_done)
		finish(connection, connection->error, now);
	let_go(connection);
}

static void arrive_at_server(struct flight *flight, uint64_t now)
{
	struct connection *connection = take_packet(flight);
	struct link *back = connection->back;

	connection->error = opening_is_heard(&connection->server) ? 0 : ECONNREFUSED;
	if (!connection->is_done && !link_loses(back))
		begin_packet(connection, back, link_arrival(back, now, 0), arrive_at_client);
	let_go(connection);
}

static void attempt(struct connection *connection, uint64_t now);

static void attempt_again(struct flight *flight, uint64_t now)
{
	struct connection *connection = take_packet(flight);

	if (!connection->is_done && connection->attempts < ATTEMPTS)
		attempt(connection, now);
	else if (!connection->is_done)
		finish(connection, ETIMEDOUT, now);
	let_go(connection);
}

/* Sends the first packet. If no answer has come by then, another one is sent later. */
static void attempt(struct connection *connection, uint64_t now)
{
	struct link *there = connection->there;
	uint64_t span = (uint64_t)NANOS << connection->attempts++;

	if (!link_loses(there))
		begin_packet(connection, there, link_arrival(there, now, 0), arrive_at_server);
	begin_packet(connection, there, now + span, attempt_again);
}

/* A socket that doesn't block gets EINPROGRESS at once. */
static void begin(struct connection *connection, uint64_t now)
{
	int flags = fcntl(connection->client, F_GETFL);
	int error = open_guard(connection) ? begin_client(connection, flags) : ENOBUFS;

	if (error == EINPROGRESS && flags & O_NONBLOCK)
		send_answer(&connection->answer, error);
	if (error == EINPROGRESS) {
		attempt(connection, now);
		return;
	}
	send_answer(&connection->answer, error);
	close_files(connection);
	free(connection);
}

void take_connection(const struct message *message, int file, int answer, uint64_t now)
{
	size_t to = node_at(message->address);
	struct connection *connection = net_allocate(sizeof(*connection));

	*connection = (struct connection){
		.there = link_between(message->node, to),
		.back = link_between(to, message->node),
		.server = { message->address, message->to.four.sin_port },
		.client = file,
		.answer = answer,
		.guard = -1,
		.filler = -1,
	};
	if (answer >= 0 && connection->there && !address_is_none(own_address(connection))) {
		begin(connection, now);
		return;
	}
	send_answer(&answer, ENETUNREACH);
	close(file);
	free(connection);
}
