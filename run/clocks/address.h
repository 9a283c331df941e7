/* SPDX-License-Identifier: MIT OR Apache-2.0 */
/*
 * address.h - the addresses of nodes. An address of IPv4 is stored as the address of IPv6 that
 * contains it, ::ffff:A.B.C.D, so both families have one form.
 */
#ifndef ADDRESS_H
#define ADDRESS_H

#include <netinet/in.h>
#include <stdbool.h>
#include <stdint.h>
#include <sys/socket.h>

/* The families of addresses. A node has at most one address of each. */
enum { FAMILY_FOUR, FAMILY_SIX, FAMILIES };

/* An address in the network's order. If all words are 0, it is none. */
struct address {
	uint32_t words[4];
};

/* An address and a port, both in the network's order. */
struct endpoint {
	struct address address;
	uint16_t port;
};

/* The least bytes of a name of IPv6: it may end before its scope. */
enum { SIX_BYTES_LEAST = 24 };

/* The name of a socket of IPv4 or IPv6. */
union socket_name {
	struct sockaddr any;
	struct sockaddr_in four;
	struct sockaddr_in6 six;
};

static const struct address NO_ADDRESS;

/* Converts an address of IPv4, in the network's order. */
struct address address_of_four(uint32_t four);

bool address_is_none(struct address address);
bool address_is_same(struct address one, struct address other);

/* Returns the family, FAMILY_FOUR or FAMILY_SIX. */
int address_family(struct address address);

/* Returns the address and the port of a name of some bytes. It has no address if it is a name of
 * another family, or a shorter one. */
struct endpoint endpoint_of(const struct sockaddr *name, socklen_t length);

/* Stores the name of an endpoint for a socket of a domain, AF_INET or AF_INET6. Returns its
 * length. */
socklen_t endpoint_name(const struct endpoint *endpoint, int domain, union socket_name *name);

#endif
