/* SPDX-License-Identifier: MIT OR Apache-2.0 */
/* net_names.c - the names of sockets, and the addresses of nodes. */
#define _GNU_SOURCE
#include "net.h"

#include <arpa/inet.h>
#include <unistd.h>

struct endpoint net_name(int file)
{
	union socket_name name = { 0 };
	socklen_t length = sizeof(name);

	getsockname(file, &name.any, &length);
	return endpoint_of(&name.any, length);
}

int net_call_with(int (*call)(int, const struct sockaddr *, socklen_t), int file,
		  const struct endpoint *name)
{
	union socket_name whole;
	int domain = AF_INET;
	socklen_t length = sizeof(domain);

	getsockopt(file, SOL_SOCKET, SO_DOMAIN, &domain, &length);
	length = endpoint_name(name, domain, &whole);
	return call(file, &whole.any, length);
}

struct address net_own_address(size_t node, struct address other)
{
	return node_machine(node)->shared->peers.own[address_family(other)];
}

int net_make(struct address address, int type)
{
	int domain = address_family(address) == FAMILY_FOUR ? AF_INET : AF_INET6;

	return socket(domain, type | SOCK_CLOEXEC, 0);
}

bool net_gets(const struct listed *found, const struct endpoint *name)
{
	bool is_four = address_family(name->address) == FAMILY_FOUR;
	struct address own = found->name.address;

	if (found->name.port != name->port)
		return false;
	if (address_is_none(own))
		return !is_four || !found->is_six_only;
	return address_is_same(own, name->address) ||
	       (is_four && address_is_same(own, address_of_four(INADDR_ANY)));
}

void net_note_relay(const struct link_options *link, uint16_t relay_port, int client,
		    uint16_t port)
{
	struct shared_page *shared = node_machine(link->from)->shared;
	struct relay *relay = &shared_relays(shared)->of[relay_port];
	uint64_t cookie = 0;
	socklen_t length = sizeof(cookie);

	getsockopt(client, SOL_SOCKET, SO_COOKIE, &cookie, &length);
	atomic_store(&relay->cookie, 0);
	atomic_store(&relay->server, (uint32_t)link->to << 16 | port);
	atomic_store(&relay->cookie, cookie);
}

bool net_is_local(struct address address)
{
	const struct endpoint name = { address, 0 };
	int file = net_make(address, SOCK_DGRAM);
	bool is_bound = !net_call_with(bind, file, &name);

	if (file >= 0)
		close(file);
	return is_bound;
}

void net_check_addresses(const struct run *run)
{
	char text[INET6_ADDRSTRLEN];

	for (size_t i = 1; i < run->count; i++) {
		struct address own = run->nodes[i].machine.shared->peers.own[FAMILY_SIX];

		if (address_is_none(own) || net_is_local(own))
			continue;
		inet_ntop(AF_INET6, &own, text, sizeof(text));
		fail_within(run->nodes[i].options.name);
		fail(STATUS_WRONG,
		     "this machine has no address %s; ip -6 addr add %s/128 dev lo nodad adds "
		     "it",
		     text, text);
	}
}
