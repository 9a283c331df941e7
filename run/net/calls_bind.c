/* SPDX-License-Identifier: MIT OR Apache-2.0 */
/* calls_bind.c - with bind=own, a socket that is bound to no address gets that of its node. */
#define _GNU_SOURCE
#include "net.h"
#include "clocks/machine.h"

/* Returns the address of the node that a socket gets which is bound to none, or none. One of IPv6
 * that takes IPv4 gets that of IPv4 only if the node has no other. */
static struct address own_for(int file, int domain)
{
	const struct address *own = net_peers()->own;

	if (domain == AF_INET || (address_is_none(own[FAMILY_SIX]) && !net_is_six_only(file)))
		return own[FAMILY_FOUR];
	return own[FAMILY_SIX];
}

/* Returns whether a name has no address. */
static bool is_any(const union socket_name *name, socklen_t length)
{
	if (length >= sizeof(name->four) && name->any.sa_family == AF_INET)
		return name->four.sin_addr.s_addr == INADDR_ANY;
	return length >= SIX_BYTES_LEAST && name->any.sa_family == AF_INET6 &&
	       IN6_IS_ADDR_UNSPECIFIED(&name->six.sin6_addr);
}

/* Stores a name with the address of the node instead of none. Returns its length, or 0 if the name
 * has an address, or the node has none for it. */
static socklen_t put_own(int file, const struct sockaddr *name, socklen_t length,
			 union socket_name *own)
{
	const union socket_name *given = (const union socket_name *)name;
	struct endpoint wanted;

	if (!is_any(given, length))
		return 0;
	wanted.address = own_for(file, given->any.sa_family);
	wanted.port = given->four.sin_port;
	return address_is_none(wanted.address)
		       ? 0
		       : endpoint_name(&wanted, given->any.sa_family, own);
}

EXPORT int bind(int file, __CONST_SOCKADDR_ARG to, socklen_t length)
{
	const struct peers *peers = net_peers();
	const struct sockaddr *name = to.__sockaddr__;
	union socket_name own;
	socklen_t own_length = 0;

	if (peers && peers->binds_own && net_can_read_name(name, length))
		own_length = put_own(file, name, length, &own);
	return own_length ? REAL(bind)(file, (struct sockaddr *)&own, own_length)
			  : REAL(bind)(file, to, length);
}
