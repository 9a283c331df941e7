/* SPDX-License-Identifier: MIT OR Apache-2.0 */
/*
 * strays.c - what a program sends to an address to which no link leads, such as 127.0.0.1 or ::1.
 * tkrun finds out whether another node gets it. It is asked a few times for each port, since
 * the program that gets it may come later.
 */
#define _GNU_SOURCE
#include "net.h"
#include "clocks/machine.h"

#include <string.h>

enum { PORTS = 65536, ASKED_MOST = 16 };

/* How often this process has asked for a port, by IPv4 and by IPv6. */
static _Atomic uint8_t asked[2][PORTS];

static bool may_ask(const union socket_name *to)
{
	_Atomic uint8_t *count = &asked[to->any.sa_family == AF_INET6][to->four.sin_port];

	return atomic_load(count) < ASKED_MOST && atomic_fetch_add(count, 1) < ASKED_MOST;
}

void net_note_stray(int file, const struct sockaddr *name, socklen_t length)
{
	struct message message = { .kind = MESSAGE_STRAY };

	if (!net_peers() || !name || length < sizeof(struct sockaddr_in))
		return;
	message.node = net_node();
	message.to_length = length < sizeof(message.to) ? length : sizeof(message.to);
	memcpy(&message.to, name, message.to_length);
	if ((message.to.any.sa_family == AF_INET || message.to.any.sa_family == AF_INET6) &&
	    may_ask(&message.to))
		net_hand_over(&message, NULL, &file, 1);
}
