/* SPDX-License-Identifier: MIT OR Apache-2.0 */
/* address.c - converts addresses of nodes, and names of sockets. */
#include "address.h"

#include <string.h>

struct address address_of_four(uint32_t four)
{
	return (struct address){ { 0, 0, htonl(0xffff), four } };
}

bool address_is_none(struct address address)
{
	return address_is_same(address, NO_ADDRESS);
}

bool address_is_same(struct address one, struct address other)
{
	return !memcmp(one.words, other.words, sizeof(one.words));
}

int address_family(struct address address)
{
	struct address four = address_of_four(address.words[3]);

	return address_is_same(address, four) ? FAMILY_FOUR : FAMILY_SIX;
}

struct endpoint endpoint_of(const struct sockaddr *name, socklen_t length)
{
	const union socket_name *whole = (const union socket_name *)name;
	struct endpoint endpoint = { NO_ADDRESS, 0 };

	if (length >= sizeof(whole->four) && name->sa_family == AF_INET) {
		endpoint.address = address_of_four(whole->four.sin_addr.s_addr);
		endpoint.port = whole->four.sin_port;
	} else if (length >= SIX_BYTES_LEAST && name->sa_family == AF_INET6) {
		memcpy(&endpoint.address, &whole->six.sin6_addr, sizeof(endpoint.address));
		endpoint.port = whole->six.sin6_port;
	}
	return endpoint;
}

socklen_t endpoint_name(const struct endpoint *endpoint, int domain, union socket_name *name)
{
	memset(name, 0, sizeof(*name));
	name->any.sa_family = (sa_family_t)domain;
	name->four.sin_port = endpoint->port;
	if (domain == AF_INET) {
		name->four.sin_addr.s_addr = endpoint->address.words[3];
		return sizeof(name->four);
	}
	memcpy(&name->six.sin6_addr, &endpoint->address, sizeof(endpoint->address));
	return sizeof(name->six);
}
