/* SPDX-License-Identifier: MIT OR Apache-2.0 */
/*
 * net_strays.c - warns of what goes from one node to another by an address to which no link leads,
 * although there is a link between them.
 */
#define _GNU_SOURCE
#include "net.h"

#include <arpa/inet.h>
#include <dirent.h>
#include <netinet/tcp.h>
#include <stdio.h>
#include <stdlib.h>
#include <string.h>
#include <unistd.h>

/* A name to which a program sends, and the inode of a socket that has it. */
struct receiver {
	struct endpoint name;
	uint32_t *inode;
};

static bool receives(const struct listed *found, const void *wanted)
{
	const struct receiver *receiver = wanted;

	if (!net_gets(found, &receiver->name))
		return false;
	*receiver->inode = found->inode;
	return true;
}

/* Returns whether a process has a socket open. */
static bool has_socket(int process, uint32_t inode)
{
	char path[320], wanted[32], link[32];
	struct dirent *entry;
	bool is_found = false;
	DIR *files;

	snprintf(wanted, sizeof(wanted), "socket:[%u]", inode);
	snprintf(path, sizeof(path), "/proc/%d/fd", process);
	files = opendir(path);
	while (files && !is_found && (entry = readdir(files))) {
		ssize_t length;

		snprintf(path, sizeof(path), "/proc/%d/fd/%s", process, entry->d_name);
		length = readlink(path, link, sizeof(link) - 1);
		link[length < 0 ? 0 : length] = 0;
		is_found = !strcmp(link, wanted);
	}
	if (files)
		closedir(files);
	return is_found;
}

/* Returns the node of a process that has a socket, or 0. */
static size_t node_with(uint32_t inode)
{
	const struct tree *tree = &the_run.tree;

	for (size_t i = 0; i < tree->process_count; i++) {
		if (has_socket(tree->processes[i].process, inode))
			return node_of(tree->processes[i].process);
	}
	return 0;
}

/* Returns the node that gets what is sent to a name, or 0. The last answer is kept: most programs
 * send to few sockets. */
static size_t receiver_of(const struct endpoint *name, int file)
{
	static uint32_t last_inode;
	static size_t last_node;
	uint32_t inode = 0;
	const struct receiver receiver = { *name, &inode };
	struct port port = { .port = name->port };
	socklen_t length = sizeof(port.protocol);

	if (getsockopt(file, SOL_SOCKET, SO_PROTOCOL, &port.protocol, &length) ||
	    !net_is_local(name->address))
		return 0;
	port.states = port.protocol == IPPROTO_TCP ? 1 << TCP_LISTEN : UINT32_MAX;
	if (sockets_find(&port, receives, &receiver) != FOUND_ONE)
		return 0;
	if (inode != last_inode)
		last_node = node_with(inode);
	last_inode = inode;
	return last_node;
}

/* Warns once for two nodes. */
static void warn(size_t from, size_t to, const struct endpoint *name)
{
	static bool is_warned[1 + NODES_MOST][1 + NODES_MOST];
	const uint32_t *words = name->address.words;
	bool is_four = address_family(name->address) == FAMILY_FOUR;
	char address[INET6_ADDRSTRLEN];

	if (is_warned[from][to])
		return;
	is_warned[from][to] = is_warned[to][from] = true;
	inet_ntop(is_four ? AF_INET : AF_INET6, is_four ? words + 3 : words, address,
		  sizeof(address));
	fprintf(stderr,
		"tkrun: '%s' sends to '%s' by the address %s, port %d: no link leads there, so "
		"nothing is delayed or lost\n",
		the_run.nodes[from].options.name, the_run.nodes[to].options.name, address,
		ntohs(name->port));
}

void take_stray(const struct message *message, int file)
{
	const struct endpoint name = endpoint_of(&message->to.any, message->to_length);
	size_t from = message->node, to = 0;

	if (name.port)
		to = receiver_of(&name, file);
	if (to && to != from && link_between(from, to))
		warn(from, to, &name);
	close(file);
}
