/* SPDX-License-Identifier: MIT OR Apache-2.0 */
/* net_datagrams.c - datagrams on their way. tkrun sends them by the sockets of their senders. */
#define _GNU_SOURCE
#include "net.h"

#include <errno.h>
#include <stdlib.h>
#include <string.h>
#include <unistd.h>

/* The socket of a sender, which all of its datagrams share. */
struct sender {
	struct sender *next;
	uint64_t cookie; /* the kernel's number of the socket */
	int file;
	size_t flights;
};

struct datagram {
	struct flight flight;
	struct sender *sender;
	struct message message;
	size_t length;
	char bytes[]; /* the control data, and what is sent */
};

static struct sender *senders;

/* Returns the sender with a socket. It closes the file if it knows the socket. */
static struct sender *sender_of(int file)
{
	struct sender *sender = senders;
	uint64_t cookie = 0;
	socklen_t length = sizeof(cookie);

	getsockopt(file, SOL_SOCKET, SO_COOKIE, &cookie, &length);
	while (sender && sender->cookie != cookie)
		sender = sender->next;
	if (sender) {
		close(file);
		return sender;
	}
	sender = net_allocate(sizeof(*sender));
	*sender = (struct sender){ .next = senders, .cookie = cookie, .file = file };
	senders = sender;
	return sender;
}

/* Forgets a flight of a sender, whose program may have closed the socket. */
static void let_sender_go(struct sender *sender)
{
	struct sender **place = &senders;

	if (--sender->flights)
		return;
	while (*place != sender)
		place = &(*place)->next;
	*place = sender->next;
	close(sender->file);
	free(sender);
}

/* Returns whether a socket is bound to no address, so that the kernel would choose the host's. */
static bool has_no_address(int file)
{
	struct address own = net_name(file).address;

	return address_is_none(own) || address_is_same(own, address_of_four(INADDR_ANY));
}

/* Appends a part to control data. Returns its length. */
static size_t put_part(char *control, size_t length, const struct cmsghdr *head,
		       const void *value)
{
	size_t at = CMSG_ALIGN(length);

	memset(control + length, 0, at - length);
	memcpy(control + at, head, sizeof(*head));
	memcpy(CMSG_DATA((struct cmsghdr *)(control + at)), value, head->cmsg_len - CMSG_LEN(0));
	return at + CMSG_ALIGN(head->cmsg_len);
}

/* Stores the address of the sender's node as the one that sends. Returns the length. */
static size_t put_source(char *control, const struct message *message)
{
	struct address own = net_own_address(message->node, message->address);
	struct in_pktinfo four = { .ipi_spec_dst.s_addr = own.words[3] };
	struct in6_pktinfo six = { .ipi6_ifindex = 0 };
	struct cmsghdr four_head = { CMSG_LEN(sizeof(four)), IPPROTO_IP, IP_PKTINFO };
	struct cmsghdr six_head = { CMSG_LEN(sizeof(six)), IPPROTO_IPV6, IPV6_PKTINFO };

	memcpy(&six.ipi6_addr, &own, sizeof(own));
	return address_family(message->address) == FAMILY_FOUR
		       ? put_part(control, 0, &four_head, &four)
		       : put_part(control, 0, &six_head, &six);
}

/* Stores the control data. The node's address sends, unless the program says otherwise. The library
 * has let the kernel stamp the datagram when the program sent it, so it isn't stamped again. */
static size_t put_control(const struct datagram *datagram, char *control)
{
	const struct message *message = &datagram->message;
	const uint32_t no_stamps = 0;
	struct cmsghdr stamps = { CMSG_LEN(sizeof(no_stamps)), SOL_SOCKET, SO_TIMESTAMPING_OLD };
	size_t length = 0;

	if (has_no_address(datagram->sender->file))
		length = put_source(control, message);
	memcpy(control + length, datagram->bytes, message->control_length);
	length += message->control_length;
	if (node_machine(message->node)->shared->has_stamps)
		length = put_part(control, length, &stamps, &no_stamps);
	return length;
}

/* An earlier datagram may have met an error, which the kernel then returns once. */
static void arrive(struct flight *flight, uint64_t now)
{
	struct datagram *datagram = (struct datagram *)flight;
	struct message *message = &datagram->message;
	_Alignas(struct cmsghdr) char control[CONTROL_MOST + CMSG_SPACE(sizeof(struct in6_pktinfo)) +
					      CMSG_SPACE(sizeof(uint32_t))];
	struct iovec text = { datagram->bytes + message->control_length, datagram->length };
	struct msghdr out = { .msg_name = message->to_length ? &message->to : NULL,
			      .msg_namelen = message->to_length,
			      .msg_iov = &text,
			      .msg_iovlen = 1,
			      .msg_control = control };
	int flags = MSG_NOSIGNAL | MSG_DONTWAIT;

	(void)now;
	out.msg_controllen = put_control(datagram, control);
	if (sendmsg(datagram->sender->file, &out, flags) < 0 && errno != EAGAIN)
		sendmsg(datagram->sender->file, &out, flags);
	let_sender_go(datagram->sender);
	free(datagram);
}

void take_datagram(const struct message *message, const char *bytes, size_t length, int file,
		   uint64_t now)
{
	struct link *link = link_between(message->node, node_at(message->address));
	bool is_lost = !link || link_loses(link) || link_is_full(link, now);
	struct datagram *datagram;

	if (is_lost) {
		close(file);
		return;
	}
	datagram = net_allocate(sizeof(*datagram) + message->control_length + length);
	datagram->message = *message;
	datagram->length = length;
	memcpy(datagram->bytes, bytes, message->control_length + length);
	datagram->sender = sender_of(file);
	datagram->sender->flights++;
	datagram->flight.arrive = arrive;
	flight_begin(&datagram->flight, link, link_arrival(link, now, length));
}
