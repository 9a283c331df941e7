/* SPDX-License-Identifier: MIT OR Apache-2.0 */
/* sockets.c - what the calls need to know of a socket. */
#define _GNU_SOURCE
#include "net.h"
#include "clocks/machine.h"

bool net_can_read_name(const struct sockaddr *name, socklen_t length)
{
	return length <= sizeof(struct sockaddr_storage) && host_can_read(name, length);
}

/* Returns the address in a name, or none. A name that the kernel refuses has none. */
static struct address address_in(const struct sockaddr *name, socklen_t length)
{
	if (!net_peers() || !name || !net_can_read_name(name, length))
		return NO_ADDRESS;
	return endpoint_of(name, length).address;
}

struct address net_address(const struct sockaddr *name, socklen_t length)
{
	struct address found = address_in(name, length);
	int family = address_family(found);

	for (uint32_t i = 0; !address_is_none(found) && i < PEERS_MOST; i++) {
		if (address_is_same(net_peers()->of[family][i], found))
			return found;
	}
	return NO_ADDRESS;
}

bool net_is_own(const struct sockaddr *name, socklen_t length)
{
	struct address found = address_in(name, length);

	return !address_is_none(found) && address_is_same(found, net_own(found));
}

struct address net_own(struct address other)
{
	return net_peers()->own[address_family(other)];
}

/* Returns an option of a socket, or -1. */
static int option_of(int file, int name)
{
	socklen_t length = sizeof(int);
	int value;

	if (host_call(SYS_getsockopt, file, SOL_SOCKET, name, (long)&value, (long)&length, 0))
		return -1;
	return value;
}

int net_type(int file)
{
	return option_of(file, SO_TYPE);
}

int net_domain(int file)
{
	return option_of(file, SO_DOMAIN);
}

bool net_is_six_only(int file)
{
	int value = 0;
	socklen_t length = sizeof(value);

	host_call(SYS_getsockopt, file, IPPROTO_IPV6, IPV6_V6ONLY, (long)&value, (long)&length, 0);
	return value;
}

/* A socket of IPv4 takes no name of IPv6. One of IPv6 takes names of IPv4, by UDP. */
bool net_takes(int file, int type, sa_family_t family, struct address address)
{
	int domain = net_domain(file);

	if (domain != family && (domain != AF_INET6 || type != SOCK_DGRAM))
		return false;
	return domain == AF_INET || address_family(address) == FAMILY_SIX ||
	       !net_is_six_only(file);
}

void net_bind(int file, struct address address)
{
	const struct endpoint wanted = { address, 0 };
	union socket_name own = { 0 };
	socklen_t length = sizeof(own);

	if (host_call(SYS_getsockname, file, (long)&own, (long)&length, 0, 0, 0) ||
	    own.four.sin_port)
		return;
	length = endpoint_name(&wanted, own.any.sa_family, &own);
	host_call(SYS_bind, file, (long)&own, length, 0, 0, 0);
}
