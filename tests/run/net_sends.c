/* SPDX-License-Identifier: MIT OR Apache-2.0 */
/*
 * Sends a datagram by each call that sends some, and prints what is wrong with their results.
 *
 *     net_sends ADDRESS PORT
 *
 * The sockets are those of IPv4, or those of IPv6 if the address is one of IPv6. Each text is the
 * name of the call. By IPv6, the machine needs the address fd00::77. The last one comes from a socket that is bound to the port before.
 */
#define _GNU_SOURCE
#include <arpa/inet.h>
#include <errno.h>
#include <netinet/in.h>
#include <stdbool.h>
#include <stdio.h>
#include <stdlib.h>
#include <string.h>
#include <sys/socket.h>
#include <sys/uio.h>
#include <unistd.h>

static union {
	struct sockaddr any;
	struct sockaddr_in four;
	struct sockaddr_in6 six;
} to;
static socklen_t to_length;
static const void *volatile nowhere = (const void *)1;

static void set_address(const char *address, const char *port)
{
	to.four.sin_port = htons((uint16_t)atoi(port));
	if (inet_pton(AF_INET, address, &to.four.sin_addr) == 1) {
		to.any.sa_family = AF_INET;
		to_length = sizeof(to.four);
	} else {
		inet_pton(AF_INET6, address, &to.six.sin6_addr);
		to.any.sa_family = AF_INET6;
		to_length = sizeof(to.six);
	}
}

static int make_socket(bool is_connected)
{
	int file = socket(to.any.sa_family, SOCK_DGRAM, 0);

	if (is_connected && connect(file, &to.any, to_length))
		perror("connect");
	return file;
}

static void expect(const char *name, long result, long wanted)
{
	if (result != wanted)
		printf("%s returns %ld, and not %ld: %s\n", name, result, wanted, strerror(errno));
	if (errno)
		printf("%s sets errno\n", name);
	errno = 0;
}

static struct msghdr message_of(struct iovec *texts, size_t count, bool has_name)
{
	return (struct msghdr){ .msg_name = has_name ? &to : NULL,
				.msg_namelen = has_name ? to_length : 0,
				.msg_iov = texts,
				.msg_iovlen = count };
}

static void send_messages(bool is_connected)
{
	struct iovec texts[] = { { "send", 4 }, { "", 0 }, { "msg", 3 }, { "mmsg", 4 } };
	struct msghdr message = message_of(texts, 3, !is_connected);
	struct mmsghdr two[] = { { message_of(texts, 1, !is_connected), 0 },
				 { message_of(texts + 2, 2, !is_connected), 0 } };
	int file = make_socket(is_connected);

	expect("sendmsg", sendmsg(file, &message, 0), 7);
	expect("sendmmsg", sendmmsg(file, two, 2, MSG_DONTWAIT), 2);
	expect("the first length", two[0].msg_len, 4);
	expect("the second length", two[1].msg_len, 7);
	if (is_connected)
		expect("send", send(file, "connected", 9, MSG_NOSIGNAL), 9);
	else
		expect("sendto", sendto(file, "sendto", 6, MSG_CONFIRM, &to.any, to_length), 6);
	close(file);
}

static void send_files(void)
{
	struct iovec texts[] = { { "wri", 3 }, { "tev", 3 } };
	int file = make_socket(true), one = 1;

	expect("write", write(file, "write", 5), 5);
	expect("writev", writev(file, texts, 2), 6);
	expect("write of nothing", write(file, "", 0), 0);
	expect("send", send(file, "", 0, 0), 0);
	setsockopt(file, SOL_SOCKET, SO_BROADCAST, &one, sizeof(one));
	close(file);
}

/* Returns whether the address isn't one of IPv4, also in one of IPv6. */
static bool is_six(void)
{
	return to.any.sa_family == AF_INET6 && !IN6_IS_ADDR_V4MAPPED(&to.six.sin6_addr);
}

/* Sends from an address that the control data states, with a socket that is bound to another. */
static void send_control(void)
{
	union {
		struct cmsghdr head;
		char bytes[CMSG_SPACE(sizeof(struct in6_pktinfo))];
	} part = { .head = { CMSG_LEN(sizeof(struct in_pktinfo)), IPPROTO_IP, IP_PKTINFO } };
	const struct in_pktinfo four = { .ipi_spec_dst.s_addr = inet_addr("127.0.0.77") };
	struct in6_pktinfo six = { .ipi6_ifindex = 0 };
	struct iovec text = { "control", 7 };
	struct msghdr message = message_of(&text, 1, true);
	int file = make_socket(false);

	memcpy(CMSG_DATA(&part.head), &four, sizeof(four));
	message.msg_controllen = CMSG_SPACE(sizeof(four));
	if (is_six()) {
		inet_pton(AF_INET6, "fd00::77", &six.ipi6_addr);
		part.head = (struct cmsghdr){ CMSG_LEN(sizeof(six)), IPPROTO_IPV6, IPV6_PKTINFO };
		memcpy(CMSG_DATA(&part.head), &six, sizeof(six));
		message.msg_controllen = CMSG_SPACE(sizeof(six));
	}
	message.msg_control = &part;
	expect("sendmsg with control data", sendmsg(file, &message, 0), 7);
	close(file);
}

static void send_too_much(void)
{
	static char bytes[65528];
	size_t size = is_six() ? 65528 : 65508;
	struct iovec texts[] = { { bytes, 65000 }, { bytes, size - 65000 } };
	struct msghdr message = message_of(texts, 2, true);
	int file = make_socket(true);

	if (send(file, bytes, size, 0) != -1 || errno != EMSGSIZE)
		puts("send of too much succeeds");
	if (sendmsg(file, &message, 0) != -1 || errno != EMSGSIZE)
		puts("sendmsg of too much succeeds");
	if (write(file, nowhere, 10) != -1 || errno != EFAULT)
		puts("write of no memory succeeds");
	errno = 0;
	expect("send of the most", send(file, bytes, size - 1, 0), (long)size - 1);
	close(file);
}

int main(int count, char **words)
{
	if (count != 3)
		return EXIT_FAILURE;
	set_address(words[1], words[2]);
	errno = 0;
	send_messages(false);
	send_messages(true);
	send_files();
	send_control();
	send_too_much();
	return EXIT_SUCCESS;
}
