/* SPDX-License-Identifier: MIT OR Apache-2.0 */
/* net_diag.c - asks the kernel for the sockets of a port. */
#define _GNU_SOURCE
#include "net.h"

#include <linux/inet_diag.h>
#include <linux/netlink.h>
#include <linux/rtnetlink.h>
#include <linux/sock_diag.h>
#include <string.h>
#include <unistd.h>

enum { ANSWER_BYTES = 65536 };

/* Asks for the sockets of a family. */
static bool ask(int file, const struct port *port, uint8_t family)
{
	struct {
		struct nlmsghdr head;
		struct inet_diag_req_v2 request;
	} ask = { .head = { .nlmsg_len = sizeof(ask),
			    .nlmsg_type = SOCK_DIAG_BY_FAMILY,
			    .nlmsg_flags = NLM_F_REQUEST | NLM_F_DUMP },
		  .request = { .sdiag_family = family,
			       .sdiag_protocol = port->protocol,
			       .idiag_states = port->states,
			       .id.idiag_sport = port->port } };

	return send(file, &ask, sizeof(ask), 0) == sizeof(ask);
}

/* Returns what the kernel says of a socket. Of those that take no IPv4, it is an attribute. */
static struct listed describe(struct nlmsghdr *head)
{
	const struct inet_diag_msg *found = NLMSG_DATA(head);
	struct rtattr *part = (struct rtattr *)(found + 1);
	size_t left = head->nlmsg_len - NLMSG_LENGTH(sizeof(*found));
	struct listed listed = { { NO_ADDRESS, found->id.idiag_sport }, false, found->idiag_inode };

	if (found->idiag_family == AF_INET)
		listed.name.address = address_of_four(found->id.idiag_src[0]);
	else
		memcpy(&listed.name.address, found->id.idiag_src, sizeof(listed.name.address));
	for (; RTA_OK(part, left); part = RTA_NEXT(part, left))
		listed.is_six_only |= part->rta_type == INET_DIAG_SKV6ONLY &&
				      *(const uint8_t *)RTA_DATA(part);
	return listed;
}

/* Reads the kernel's answer. Returns whether it contains a socket that is wanted. */
static bool find(int file, socket_test *is_wanted, const void *wanted)
{
	static _Alignas(struct nlmsghdr) char bytes[ANSWER_BYTES];
	struct listed listed;
	bool is_found = false;
	ssize_t length;

	while ((length = recv(file, bytes, sizeof(bytes), 0)) > 0) {
		size_t left = (size_t)length;
		struct nlmsghdr *head = (struct nlmsghdr *)bytes;

		for (; NLMSG_OK(head, left); head = NLMSG_NEXT(head, left)) {
			if (head->nlmsg_type != SOCK_DIAG_BY_FAMILY)
				return is_found; /* the end, or an error */
			listed = describe(head);
			is_found |= is_wanted(&listed, wanted);
		}
	}
	return is_found;
}

enum found sockets_find(const struct port *port, socket_test *is_wanted, const void *wanted)
{
	int file = socket(AF_NETLINK, SOCK_DGRAM | SOCK_CLOEXEC, NETLINK_SOCK_DIAG);
	bool is_found;

	if (file < 0)
		return FOUND_UNKNOWN;
	is_found = (ask(file, port, AF_INET) && find(file, is_wanted, wanted)) ||
		   (ask(file, port, AF_INET6) && find(file, is_wanted, wanted));
	close(file);
	return is_found ? FOUND_ONE : FOUND_NONE;
}
