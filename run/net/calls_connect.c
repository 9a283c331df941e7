/* SPDX-License-Identifier: MIT OR Apache-2.0 */
/*
 * calls_connect.c - connections. Those of UDP, and those within the node, get its address. Those of
 * TCP to other nodes are made by tkrun, and lead to it: its end stands for the server.
 */
#define _GNU_SOURCE
#include "net.h"
#include "relays.h"
#include "clocks/machine.h"

#include <netinet/tcp.h>
#include <string.h>
#include <unistd.h>

enum { BOTH = 2 };

/* Returns the error of a connection that has failed, or 0. */
static int failure_of(int file)
{
	int error = 0;
	socklen_t length = sizeof(error);

	getsockopt(file, SOL_SOCKET, SO_ERROR, &error, &length);
	return error;
}

/* Returns whether a socket of TCP is connected, or about to be. */
static bool is_in_use(int file)
{
	uint8_t state = TCP_CLOSE;
	socklen_t length = sizeof(state);

	host_call(SYS_getsockopt, file, IPPROTO_TCP, TCP_INFO, (long)&state, (long)&length, 0);
	return state != TCP_CLOSE;
}

/* Waits for the error of a connection that tkrun makes. A signal interrupts that. */
static int wait_for_answer(int file)
{
	int error = ENETDOWN;
	long length = host_call(SYS_recvfrom, file, (long)&error, sizeof(error), 0, 0, 0);

	return length < 0 ? (int)-length : error;
}

/* Lets tkrun connect a socket. Returns 0 or an errno. */
static int connect_over(int file, const struct sockaddr *to, socklen_t length,
			struct address address)
{
	struct message message = { .kind = MESSAGE_CONNECT, .node = net_node(), .address = address };
	int error = failure_of(file), ends[BOTH], files[BOTH];

	if (error)
		return error;
	if (address_is_none(net_own(address)))
		return ENETUNREACH;
	error = (int)-host_call(SYS_socketpair, AF_UNIX, SOCK_SEQPACKET | SOCK_CLOEXEC, 0,
				(long)ends, 0, 0);
	if (error)
		return error;
	message.to_length = length < sizeof(message.to) ? length : sizeof(message.to);
	memcpy(&message.to, to, message.to_length);
	files[0] = file;
	files[1] = ends[1];
	error = net_hand_over(&message, NULL, files, BOTH);
	host_call(SYS_close, ends[1], 0, 0, 0, 0, 0);
	if (!error)
		error = wait_for_answer(ends[0]);
	host_call(SYS_close, ends[0], 0, 0, 0, 0, 0);
	return error;
}

/* Returns the type of a socket that may connect to an address by a name, or -1. */
static int type_for(int file, const struct sockaddr *name, struct address address)
{
	int type = net_type(file);

	return type >= 0 && net_takes(file, type, name->sa_family, address) ? type : -1;
}

EXPORT int connect(int file, __CONST_SOCKADDR_ARG to, socklen_t length)
{
	const struct sockaddr *name = to.__sockaddr__;
	bool is_own = net_is_own(name, length);
	const struct address address = is_own ? endpoint_of(name, length).address
					      : net_address(name, length);
	bool is_linked = !is_own && !address_is_none(address);
	int type = is_own || is_linked ? type_for(file, name, address) : -1, saved = errno, error;

	if (is_linked && type == SOCK_DGRAM && address_is_none(net_own(address)))
		return net_refuse(ENETUNREACH);
	if (is_own ? type >= 0 : type == SOCK_DGRAM)
		net_bind(file, net_own(address));
	if (!is_linked || type != SOCK_STREAM || is_in_use(file)) {
		error = REAL(connect)(file, to, length);
		if (!is_linked && !is_own && (!error || errno == EINPROGRESS))
			net_note_stray(file, name, length);
		return error;
	}
	error = connect_over(file, name, length, address);
	errno = saved;
	return error ? net_refuse(error) : 0;
}

/* Stores the node, or 0, and the port of the server for which tkrun's end of a connection of IPv6
 * stands. */
static void find_six(int file, uint16_t port, size_t *node, uint16_t *server)
{
	const struct relay *relay = net_relay(port);
	uint64_t cookie = 0;
	socklen_t length = sizeof(cookie);
	uint32_t value;

	host_call(SYS_getsockopt, file, SOL_SOCKET, SO_COOKIE, (long)&cookie, (long)&length, 0);
	*node = 0;
	if (!relay || !cookie || atomic_load(&relay->cookie) != cookie)
		return;
	value = atomic_load(&relay->server);
	*node = value >> 16;
	*server = (uint16_t)value;
}

/* Stores the server instead of tkrun's end of a connection. Returns false if it isn't such one. */
static bool put_server(int file, struct endpoint *peer)
{
	int family = address_family(peer->address);
	uint32_t four = peer->address.words[3];
	size_t node = 0;

	if (family == FAMILY_SIX && address_is_same(peer->address, RELAY_SIX)) {
		find_six(file, peer->port, &node, &peer->port);
	} else if (family == FAMILY_FOUR && is_relay(four)) {
		node = relay_node(four);
		peer->port = relay_port(four);
	}
	if (!node || node > PEERS_MOST)
		return false;
	peer->address = net_peers()->of[family][node - 1];
	return !address_is_none(peer->address);
}

EXPORT int getpeername(int file, __SOCKADDR_ARG address, socklen_t *restrict length)
{
	union socket_name peer = { 0 };
	socklen_t size = sizeof(peer), room = host_can_read(length, sizeof(*length)) ? *length : 0;
	int result = REAL(getpeername)(file, address, length);
	struct endpoint end;

	if (result || !net_peers() ||
	    host_call(SYS_getpeername, file, (long)&peer, (long)&size, 0, 0, 0))
		return result;
	end = endpoint_of(&peer.any, size);
	if (address_is_none(end.address) || !put_server(file, &end))
		return result;
	size = endpoint_name(&end, peer.any.sa_family, &peer);
	memcpy(address.__sockaddr__, &peer, room < size ? room : size);
	return result;
}

/* Returns the error with which tkrun has ended the attempt to connect a socket, or 0. */
static int take_failure(int file)
{
	int value = 0, none = 0;
	socklen_t length = sizeof(value);

	host_call(SYS_getsockopt, file, IPPROTO_TCP, TCP_USER_TIMEOUT, (long)&value, (long)&length,
		  0);
	if ((value & ~FAILURE_ERRORS) != FAILURE)
		return 0;
	host_call(SYS_setsockopt, file, IPPROTO_TCP, TCP_USER_TIMEOUT, (long)&none, sizeof(none), 0);
	return value & FAILURE_ERRORS;
}

/* tkrun ends a connection that has failed, which the kernel reports as ECONNRESET. */
EXPORT int getsockopt(int file, int level, int name, void *restrict value,
		      socklen_t *restrict length)
{
	int result = REAL(getsockopt)(file, level, name, value, length), error, failure;

	if (result || level != SOL_SOCKET || name != SO_ERROR || !net_peers() ||
	    *length < sizeof(error))
		return result;
	memcpy(&error, value, sizeof(error));
	failure = error == ECONNRESET ? take_failure(file) : 0;
	if (failure)
		memcpy(value, &failure, sizeof(failure));
	return result;
}
