/* SPDX-License-Identifier: MIT OR Apache-2.0 */
/*
 * stamps.c - stamps of SO_TIMESTAMPING for what is sent over a link. tkrun sends it by the
 * program's socket when it arrives, which is too late for the stamp. So the library sends a copy to
 * a sink now, and the kernel puts the copy with its stamp into the error queue of the socket.
 */
#define _GNU_SOURCE
#include "net.h"
#include "clocks/machine.h"

#include <linux/net_tstamp.h>
#include <string.h>

/* Returns which stamps a message asks for, or the socket. */
static uint32_t asked_stamps(int file, const struct msghdr *message)
{
	uint32_t flags = 0;
	socklen_t length = sizeof(flags);
	struct msghdr parts = *message;

	host_call(SYS_getsockopt, file, SOL_SOCKET, SO_TIMESTAMPING_OLD, (long)&flags,
		  (long)&length, 0);
	for (struct cmsghdr *part = parts.msg_control ? CMSG_FIRSTHDR(&parts) : NULL; part;
	     part = CMSG_NXTHDR(&parts, part)) {
		if (part->cmsg_level == SOL_SOCKET && part->cmsg_type == SO_TIMESTAMPING_OLD &&
		    part->cmsg_len >= CMSG_LEN(sizeof(flags)) &&
		    CMSG_DATA(part) + sizeof(flags) <=
			    (unsigned char *)parts.msg_control + parts.msg_controllen)
			memcpy(&flags, CMSG_DATA(part), sizeof(flags));
	}
	return flags & SOF_TIMESTAMPING_TX_RECORD_MASK;
}

void net_stamp(int file, const struct msghdr *message, struct address address)
{
	const struct endpoint *sink = &net_peers()->sinks[address_family(address)];
	struct msghdr copy = *message;
	union socket_name name;

	if (!sink->port || !asked_stamps(file, message))
		return;
	copy.msg_namelen = endpoint_name(sink, net_domain(file), &name);
	copy.msg_name = &name;
	host_call(SYS_sendmsg, file, (long)&copy, MSG_NOSIGNAL | MSG_DONTWAIT, 0, 0, 0);
}
