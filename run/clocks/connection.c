/* SPDX-License-Identifier: MIT OR Apache-2.0 */
/* connection.c - asks the kernel for the other end of a connection, by its names. */
#define _GNU_SOURCE
#include "connection.h"

#include "address.h"
#include "host.h"

#include <errno.h>
#include <linux/inet_diag.h>
#include <linux/netlink.h>
#include <linux/rtnetlink.h>
#include <linux/sock_diag.h>
#include <linux/tcp.h>
#include <string.h>
#include <sys/syscall.h>

enum {
	ANSWER_BYTES = 4096,
	STATES_WITH_BYTES = 1 << 1 | 1 << 4 | 1 << 5 | 1 << 8, /* established, and half closed */
};

/* Stores an address. One of IPv6 may contain one of IPv4. Returns its family. */
static int put_address(const union socket_name *name, uint32_t words[4], uint16_t *port)
{
	*port = name->four.sin_port;
	if (name->any.sa_family == AF_INET) {
		words[0] = name->four.sin_addr.s_addr;
	} else if (IN6_IS_ADDR_V4MAPPED(&name->six.sin6_addr)) {
		memcpy(words, &name->six.sin6_addr.s6_addr[12], 4);
		return AF_INET;
	} else {
		memcpy(words, &name->six.sin6_addr, 16);
	}
	return name->any.sa_family;
}

/* Stores the names of the other end. Returns its family, or 0 if there is none. */
static int name_other_end(int file, struct inet_diag_sockid *id)
{
	union socket_name own = { 0 }, other = { 0 };
	socklen_t own_size = sizeof(own), other_size = sizeof(other);
	int family;

	if (host_call(SYS_getpeername, file, (long)&other, (long)&other_size, 0, 0, 0) ||
	    host_call(SYS_getsockname, file, (long)&own, (long)&own_size, 0, 0, 0) ||
	    (own.any.sa_family != AF_INET && own.any.sa_family != AF_INET6))
		return 0;
	family = put_address(&other, id->idiag_src, &id->idiag_sport);
	put_address(&own, id->idiag_dst, &id->idiag_dport);
	id->idiag_cookie[0] = id->idiag_cookie[1] = INET_DIAG_NOCOOKIE;
	return family;
}

/* Stores what an answer of the kernel says. Returns false if it is an error. */
static bool read_answer(struct nlmsghdr *head, size_t size, struct receiver *receiver)
{
	const struct inet_diag_msg *found = NLMSG_DATA(head);
	struct rtattr *part = (struct rtattr *)(found + 1);
	struct tcp_info info;
	size_t left;

	if (!NLMSG_OK(head, size) || head->nlmsg_type != SOCK_DIAG_BY_FAMILY ||
	    !(STATES_WITH_BYTES >> found->idiag_state & 1))
		return false;
	left = head->nlmsg_len - NLMSG_LENGTH(sizeof(*found));
	for (; RTA_OK(part, left); part = RTA_NEXT(part, left)) {
		if (part->rta_type != INET_DIAG_INFO || RTA_PAYLOAD(part) < sizeof(info))
			continue;
		memcpy(&info, RTA_DATA(part), sizeof(info));
		*receiver = (struct receiver){ info.tcpi_bytes_received, found->idiag_rqueue };
		return true;
	}
	return false;
}

/* Asks the kernel once. */
static bool ask(int file, struct receiver *receiver)
{
	struct {
		struct nlmsghdr head;
		struct inet_diag_req_v2 request;
	} ask = { .head = { .nlmsg_len = sizeof(ask),
			    .nlmsg_type = SOCK_DIAG_BY_FAMILY,
			    .nlmsg_flags = NLM_F_REQUEST },
		  .request = { .sdiag_protocol = IPPROTO_TCP,
			       .idiag_ext = 1 << (INET_DIAG_INFO - 1),
			       .idiag_states = (uint32_t)-1 } };
	_Alignas(struct nlmsghdr) char answer[ANSWER_BYTES];
	long link, size = -1;

	ask.request.sdiag_family = (uint8_t)name_other_end(file, &ask.request.id);
	if (!ask.request.sdiag_family)
		return false;
	link = host_call(SYS_socket, AF_NETLINK, SOCK_DGRAM | SOCK_CLOEXEC, NETLINK_SOCK_DIAG, 0, 0,
			 0);
	if (link < 0)
		return false;
	if (host_call(SYS_sendto, link, (long)&ask, sizeof(ask), 0, 0, 0) == sizeof(ask))
		size = host_call(SYS_recvfrom, link, (long)answer, sizeof(answer), MSG_DONTWAIT, 0,
				 0);
	host_call(SYS_close, link, 0, 0, 0, 0, 0);
	return size > 0 && read_answer((struct nlmsghdr *)answer, (size_t)size, receiver);
}

bool connection_receiver(int file, struct receiver *receiver)
{
	struct receiver again;

	if (!ask(file, receiver))
		return false;
	/* the two numbers are read one after the other, and bytes may arrive in between */
	while (ask(file, &again) && (again.received != receiver->received ||
				     again.unread != receiver->unread))
		*receiver = again;
	return true;
}

size_t connection_room(const struct receiver *receiver)
{
	return receiver->unread < CONNECTION_BYTES ? CONNECTION_BYTES - receiver->unread : 0;
}

bool connection_has_room(const struct receiver *receiver)
{
	return connection_room(receiver) >= CONNECTION_BYTES / 4;
}

/* The host's time. In a library of a run, host_nanos would read the clocks of the run. */
static uint64_t nanos_now(void)
{
	struct timespec now = { 0 };

	host_gettime_by_call(CLOCK_MONOTONIC, &now);
	return (uint64_t)now.tv_sec * NANOS + (uint64_t)now.tv_nsec;
}

void connection_settle(int file, const struct receiver *before, size_t sent)
{
	uint64_t end = nanos_now() + NANOS;
	struct receiver now;

	/* a thread that slept would count as one that waits */
	while (ask(file, &now) && now.received - before->received < sent &&
	       nanos_now() < end)
		host_call(SYS_sched_yield, 0, 0, 0, 0, 0, 0);
}
