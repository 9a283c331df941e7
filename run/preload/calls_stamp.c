/* SPDX-License-Identifier: MIT OR Apache-2.0 */
/*
 * calls_stamp.c - the stamps of packets. The kernel stamps packets with the host's REALTIME.
 * Without --stamps the library refuses stamps, so that no program mixes two clocks. With --stamps
 * it converts them: a packet is as old on the clocks as it is on the host.
 */
#define _GNU_SOURCE
#include "calls_socket.h"

#include <netinet/in.h>
#include <netinet/tcp.h>
#include <linux/net_tstamp.h>
#include <string.h>
#include <sys/socket.h>
#include <sys/time.h>

/* Returns whether SO_TIMESTAMPING is to stamp what arrives and what is sent, by the kernel's clock,
 * and nothing else. A value that can't be read is left to the kernel. */
static bool asks_for_kernel(const void *value, socklen_t length)
{
	const uint32_t known = SOF_TIMESTAMPING_TX_SOFTWARE | SOF_TIMESTAMPING_RX_SOFTWARE |
			       SOF_TIMESTAMPING_SOFTWARE | SOF_TIMESTAMPING_OPT_ID |
			       SOF_TIMESTAMPING_OPT_CMSG | SOF_TIMESTAMPING_OPT_TSONLY;
	uint32_t flags;

	if (length < sizeof(flags))
		return false;
	if (!host_can_read(value, sizeof(flags)))
		return true;
	memcpy(&flags, value, sizeof(flags));
	return !(flags & ~known);
}

EXPORT int setsockopt(int file, int level, int name, const void *value,
		      socklen_t length)
{
	struct machine *m = machine();

	if (level == IPPROTO_TCP && name == TCP_NODELAY)
		return set_no_delay(m, file, value, length);
	if (!m || level != SOL_SOCKET)
		return REAL(setsockopt)(file, level, name, value, length);
	switch (name) {
	case SO_TIMESTAMP_OLD:
	case SO_TIMESTAMPNS_OLD:
		if (m->shared->has_stamps)
			break;
		return refuse(ENOPROTOOPT);
	case SO_TIMESTAMPING_OLD:
		if (m->shared->has_stamps && asks_for_kernel(value, length))
			break;
		return refuse(ENOPROTOOPT);
	case SO_TIMESTAMP_NEW:
	case SO_TIMESTAMPNS_NEW:
	case SO_TIMESTAMPING_NEW:
		return refuse(ENOPROTOOPT);
	case SO_RCVTIMEO_OLD:
	case SO_SNDTIMEO_OLD:
		note_host(m, HOST_SOCKET);
	}
	return REAL(setsockopt)(file, level, name, value, length);
}

/* Returns how long ago it was, on the clocks, that the host's REALTIME had a value, in ns. A counter
 * of sleeps stands still while the host's goes on. */
static int64_t age_of(struct machine *m, int64_t host)
{
	uint64_t age;

	if (m->shared->kind != COUNTER_SLEEPS)
		return (int64_t)((double)((int64_t)host_nanos(CLOCK_REALTIME) - host) *
				 m->shared->speed);
	return m->control && moves_find(m, (uint64_t)host, &age) ? (int64_t)age : 0;
}

/* Returns the clocks' REALTIME when the host's had a value. */
static struct timespec convert(struct machine *m, const struct timespec *stamp)
{
	int64_t age = age_of(m, stamp->tv_sec * NANOS + stamp->tv_nsec);
	struct tkc_time now;
	int64_t nanos;

	if (machine_read(m, TKC_CLOCK_REALTIME, &now, BY_STAMP))
		return *stamp;
	nanos = now.sec * NANOS + now.nsec - age;
	return (struct timespec){ nanos / NANOS, nanos % NANOS };
}

static void convert_part(struct machine *m, struct cmsghdr *part)
{
	struct timespec stamp;
	struct timeval micros;

	if (part->cmsg_level != SOL_SOCKET || part->cmsg_len < CMSG_LEN(sizeof(stamp)))
		return; /* or the program's memory has no space for a whole one */
	if (part->cmsg_type == SO_TIMESTAMPNS_OLD || part->cmsg_type == SO_TIMESTAMPING_OLD) {
		memcpy(&stamp, CMSG_DATA(part), sizeof(stamp));
		stamp = convert(m, &stamp);
		memcpy(CMSG_DATA(part), &stamp, sizeof(stamp));
	} else if (part->cmsg_type == SO_TIMESTAMP_OLD) {
		memcpy(&micros, CMSG_DATA(part), sizeof(micros));
		stamp = (struct timespec){ micros.tv_sec,
					   micros.tv_usec * 1000 };
		stamp = convert(m, &stamp);
		micros = (struct timeval){ stamp.tv_sec, stamp.tv_nsec / 1000 };
		memcpy(CMSG_DATA(part), &micros, sizeof(micros));
	}
}

static void convert_all(struct msghdr *message)
{
	struct machine *m = machine();
	struct cmsghdr *part;

	if (!m || !m->shared->has_stamps || !message->msg_control)
		return;
	for (part = CMSG_FIRSTHDR(message); part;
	     part = CMSG_NXTHDR(message, part))
		convert_part(m, part);
}

EXPORT ssize_t recvmsg(int file, struct msghdr *message, int flags)
{
	ssize_t length = REAL(recvmsg)(file, message, flags);

	if (length >= 0)
		convert_all(message);
	return length;
}

EXPORT int recvmmsg(int file, struct mmsghdr *messages, unsigned int count,
		    int flags, struct timespec *span)
{
	int received = REAL(recvmmsg)(file, messages, count, flags, span);

	if (machine() && span)
		note_host(machine(), HOST_MESSAGES);
	for (int i = 0; i < received; i++)
		convert_all(&messages[i].msg_hdr);
	return received;
}
