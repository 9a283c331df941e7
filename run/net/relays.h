/* SPDX-License-Identifier: MIT OR Apache-2.0 */
/*
 * relays.h - the addresses at which tkrun stands for the servers of other nodes. A connection of
 * TCP between two nodes is two of them: from the client to tkrun, and from tkrun to the server. By
 * IPv4, the address of tkrun's end contains the node and the port of the server, from which the
 * library computes what getpeername returns. By IPv6 a machine has too few addresses for that:
 * tkrun's end has ::1 and any port, and a struct relays contains the server.
 */
#ifndef RELAYS_H
#define RELAYS_H

#include "clocks/address.h"

#include <arpa/inet.h>
#include <stddef.h>

/* 127.64.0.0, and the address after the last one. */
#define RELAYS_FIRST UINT32_C(0x7f400000)
#define RELAYS_END UINT32_C(0x7f800000)

/* 127.128.0.1, to which copies of datagrams are sent for their stamps; by IPv6, to ::1. */
#define SINK_ADDRESS UINT32_C(0x7f800001)

/* ::1 */
#define RELAY_SIX ((struct address){ { 0, 0, 0, htonl(1) } })

/* Returns the address that stands for a port, both in the network's order, of a node. */
static inline uint32_t relay_address(size_t node, uint16_t port)
{
	return htonl(RELAYS_FIRST + ((uint32_t)(node - 1) << 16) + ntohs(port));
}

/* Return whether an address is such a one, and its node and port. */
static inline bool is_relay(uint32_t address)
{
	return ntohl(address) >= RELAYS_FIRST && ntohl(address) < RELAYS_END;
}

static inline size_t relay_node(uint32_t address)
{
	return ((ntohl(address) - RELAYS_FIRST) >> 16) + 1;
}

static inline uint16_t relay_port(uint32_t address)
{
	return htons((uint16_t)ntohl(address));
}

#endif
