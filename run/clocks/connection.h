/* SPDX-License-Identifier: MIT OR Apache-2.0 */
/*
 * connection.h - with --seed, how many bytes a connection of TCP takes. The kernel's buffers depend
 * on when it has sent and acknowledged bytes. So a connection has space for CONNECTION_BYTES that
 * its receiver hasn't read, and a sender waits until the kernel has delivered what it has sent.
 */
#ifndef CONNECTION_H
#define CONNECTION_H

#include <stdbool.h>
#include <stddef.h>
#include <stdint.h>

enum {
	CONNECTION_BYTES = 131072,
	/* the size to set, which the kernel doubles: its window is greater than CONNECTION_BYTES
	 * then, also if bytes come one by one */
	CONNECTION_RECEIVE_BYTES = 212992,
};

/* What the receiver of a connection has. */
struct receiver {
	uint64_t received; /* bytes since the connection was made */
	uint32_t unread;
};

/* Asks the kernel for the receiver of what a socket sends. Returns false if it isn't a connection
 * of TCP between two sockets of this network, or the kernel doesn't say it. */
bool connection_receiver(int file, struct receiver *receiver);

/* Returns how many bytes a receiver has space for. */
size_t connection_room(const struct receiver *receiver);

/* Returns whether it has so much space that a sender goes on: a quarter, as in the kernel's
 * rule. */
bool connection_has_room(const struct receiver *receiver);

/* Waits until the receiver has got this many bytes more than it had before, or for a second of the
 * host's time: it may be gone. */
void connection_settle(int file, const struct receiver *before, size_t sent);

#endif
