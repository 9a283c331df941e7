/* SPDX-License-Identifier: MIT OR Apache-2.0 */
/*
 * net_faults ADDRESS PORT: calls of sockets that get memory which isn't there, or only in part.
 * Prints what each returns. A few of them send a datagram all the same, and one more comes last.
 */
#define _GNU_SOURCE
#include <arpa/inet.h>
#include <errno.h>
#include <linux/net_tstamp.h>
#include <netinet/in.h>
#include <netinet/tcp.h>
#include <stdbool.h>
#include <stdint.h>
#include <stdio.h>
#include <stdlib.h>
#include <string.h>
#include <sys/mman.h>
#include <sys/socket.h>
#include <sys/uio.h>
#include <unistd.h>

enum { PAGE = 4096, GUARD = 0x55 };

#define TRY(call)                                                                      \
	do {                                                                           \
		long result;                                                           \
                                                                                       \
		errno = 0;                                                             \
		result = (call);                                                       \
		printf("%s %ld %s\n", #call, result, result < 0 ? strerrorname_np(errno) : "-"); \
	} while (0)

static union {
	struct sockaddr any;
	struct sockaddr_in four;
	struct sockaddr_in6 six;
} to;
static socklen_t to_size; /* of the name, and of names of its family */
static int plain, linked, local, stream; /* one has no peer, the second is connected to ADDRESS, the
					    third to itself, and the last one is of TCP */
static char *pages; /* two, of which only the first one is there */

static int make_socket(int type, const struct sockaddr *peer)
{
	int file = socket(to.any.sa_family, type, 0);

	if (peer && connect(file, peer, to_size))
		perror("connect");
	return file;
}

static void make_sockets(void)
{
	__typeof__(to) own = { .six.sin6_addr = IN6ADDR_LOOPBACK_INIT };
	socklen_t size = to_size;
	int one = 1;

	own.any.sa_family = to.any.sa_family;
	if (to.any.sa_family == AF_INET)
		own.four.sin_addr.s_addr = htonl(INADDR_LOOPBACK);

	plain = make_socket(SOCK_DGRAM, NULL);
	linked = make_socket(SOCK_DGRAM, &to.any);
	local = make_socket(SOCK_DGRAM, NULL);
	stream = make_socket(SOCK_STREAM, NULL);
	if (bind(local, &own.any, size) || getsockname(local, &own.any, &size) ||
	    connect(local, &own.any, size) ||
	    setsockopt(local, SOL_SOCKET, SO_TIMESTAMPNS, &one, sizeof(one)))
		perror("local");
}

/* Copies the first bytes of an object to the end of the memory that is there. */
static void *at_edge(const void *object, size_t bytes)
{
	return memcpy(pages + PAGE - bytes, object, bytes);
}

static struct msghdr message_of(struct iovec *texts, size_t count)
{
	return (struct msghdr){ .msg_name = &to, .msg_namelen = to_size,
				.msg_iov = texts, .msg_iovlen = count };
}

/* Sends with each part of a message elsewhere. */
static void send_messages(void *bad)
{
	struct iovec text = { "message", 7 }, missing = { bad, 7 };
	struct msghdr message = message_of(&text, 1), name = message, parts = message,
		      bytes = message_of(&missing, 1), control = message;
	struct mmsghdr two[2] = { { message, 0 }, { parts, 0 } };

	name.msg_name = bad;
	parts.msg_iov = bad;
	control.msg_control = bad;
	control.msg_controllen = sizeof(struct cmsghdr);
	two[0].msg_hdr.msg_iov = bad;
	TRY(sendmsg(plain, bad, 0));
	TRY(sendmsg(plain, &name, 0));
	TRY(sendmsg(plain, &parts, 0));
	TRY(sendmsg(plain, &bytes, 0));
	TRY(sendmsg(plain, &control, 0));
	TRY(sendmmsg(plain, bad, 2, 0));
	TRY(sendmmsg(plain, two, 2, 0));
}

static void send_bytes(void *bad)
{
	struct iovec missing = { bad, 5 };

	TRY(send(linked, bad, 5, 0));
	TRY(write(linked, bad, 5));
	TRY(writev(linked, &missing, 1));
	TRY(writev(linked, bad, 2));
	TRY(sendto(plain, bad, 5, 0, (struct sockaddr *)&to, to_size));
	TRY(sendto(plain, "name", 4, 0, bad, to_size));
	TRY(sendto(stream, "name", 4, MSG_FASTOPEN, bad, to_size));
}

static void use_names(void *bad)
{
	struct sockaddr_in6 name;
	socklen_t size = sizeof(name);

	TRY(connect(plain, bad, to_size));
	TRY(connect(stream, bad, to_size));
	TRY(bind(plain, bad, to_size));
	TRY(getpeername(linked, bad, &size));
	TRY(getpeername(linked, (struct sockaddr *)&name, bad));
	TRY(setsockopt(stream, IPPROTO_TCP, TCP_NODELAY, bad, sizeof(int)));
	TRY(setsockopt(plain, SOL_SOCKET, SO_TIMESTAMPING, bad, sizeof(int)));
	TRY(getsockopt(plain, SOL_SOCKET, SO_ERROR, bad, &size));
	TRY(getsockopt(plain, SOL_SOCKET, SO_ERROR, &size, bad));
}

/* Prints what is left to be received. */
static void show_rest(void)
{
	char text[9] = "";

	while (recv(local, text, sizeof(text) - 1, MSG_DONTWAIT) > 0)
		printf("left: %s\n", text);
}

#define RECEIVE(call)                                  \
	do {                                           \
		send(local, "one", 3, 0);              \
		send(local, "two", 3, 0);              \
		TRY(call);                             \
		show_rest();                           \
	} while (0)

static void receive(void *bad)
{
	char text[9];
	struct iovec space = { text, sizeof(text) }, missing = { bad, 9 };
	struct msghdr parts = { .msg_iov = bad, .msg_iovlen = 1 },
		      bytes = { .msg_iov = &missing, .msg_iovlen = 1 },
		      name = { .msg_name = bad, .msg_namelen = 16, .msg_iov = &space,
			       .msg_iovlen = 1 },
		      control = { .msg_control = bad, .msg_controllen = 64, .msg_iov = &space,
				  .msg_iovlen = 1 };
	struct mmsghdr two[2] = { { name, 0 }, { parts, 0 } };
	socklen_t size = to_size;

	RECEIVE(recv(local, bad, 9, 0));
	RECEIVE(read(local, bad, 9));
	RECEIVE(readv(local, &missing, 1));
	RECEIVE(readv(local, bad, 1));
	RECEIVE(recvfrom(local, bad, 9, 0, NULL, NULL));
	RECEIVE(recvfrom(local, text, 9, 0, bad, &size));
	RECEIVE(recvfrom(local, text, 9, 0, (struct sockaddr *)&to, bad));
	RECEIVE(recvmsg(local, bad, 0));
	RECEIVE(recvmsg(local, &parts, 0));
	RECEIVE(recvmsg(local, &bytes, 0));
	RECEIVE(recvmsg(local, &name, 0));
	RECEIVE(recvmsg(local, &control, 0));
	RECEIVE(recvmmsg(local, bad, 2, 0, NULL));
	RECEIVE(recvmmsg(local, two, 2, MSG_DONTWAIT, NULL));
}

/* Only the first part of what a call gets is there. */
static void use_edges(void)
{
	struct iovec texts[2] = { { "edge", 4 }, { "edge", 4 } };
	struct msghdr message = message_of(texts, 1), name = message, parts = message_of(texts, 2);
	struct mmsghdr two[2] = { { message, 0 }, { message, 0 } };

	TRY(send(linked, at_edge("edge", 4), 5, 0));
	TRY(sendto(plain, "edge", 4, 0, at_edge(&to, to_size - 1), to_size));
	TRY(connect(plain, at_edge(&to, to_size - 1), to_size));
	TRY(sendmsg(plain, at_edge(&message, sizeof(message) - 8), 0));
	name.msg_name = at_edge(&to, 8);
	TRY(sendmsg(plain, &name, 0));
	name.msg_name = at_edge(&to, to_size);
	name.msg_namelen = to_size + 1;
	TRY(sendmsg(plain, &name, 0));
	parts.msg_iov = at_edge(texts, sizeof(*texts));
	TRY(sendmsg(plain, &parts, 0));
	TRY(writev(linked, at_edge(texts, sizeof(*texts)), 2));
	TRY(sendmmsg(plain, at_edge(two, sizeof(*two)), 2, 0)); /* the first one is sent */
	two[1].msg_hdr.msg_iov = (struct iovec *)1;
	TRY(sendmmsg(plain, two, 2, 0));
	printf("lengths %u %u\n", two[0].msg_len, two[1].msg_len);
	at_edge(two, sizeof(*two));
	mprotect(pages, PAGE, PROT_READ);
	TRY(sendmmsg(plain, (struct mmsghdr *)(pages + PAGE) - 1, 1, 0)); /* it is sent, too */
	mprotect(pages, PAGE, PROT_READ | PROT_WRITE);
}

/* Wrong numbers, and what is right at the limits. */
static void use_numbers(void)
{
	struct iovec none[2] = { { "", 0 }, { NULL, 0 } }, text = { "at the end", 10 };
	volatile int below = -1, above = 1025; /* gcc would warn */
	char long_name[200] = "";
	struct msghdr message = message_of(&text, 1);

	TRY(writev(linked, none, 2));
	TRY(writev(linked, none, 0));
	TRY(writev(linked, none, below));
	TRY(writev(linked, none, above));
	TRY(sendmmsg(plain, NULL, 0, 0));
	TRY(sendmmsg(-1, NULL, 0, 0));
	TRY(sendto(plain, "x", 1, 0, (struct sockaddr *)&to, 4096));
	TRY(connect(plain, (struct sockaddr *)&to, 4096));
	TRY(sendto(linked, "x", 1, 0, (struct sockaddr *)&to, 0));
	message.msg_namelen = (socklen_t)-1;
	TRY(sendmsg(plain, &message, 0));
	message.msg_namelen = 0;
	TRY(sendmsg(linked, &message, 0));
	memcpy(long_name, &to, to_size);
	message.msg_name = long_name;
	message.msg_namelen = sizeof(long_name);
	TRY(sendmsg(plain, &message, 0));
	message = message_of(&text, 2000);
	TRY(sendmsg(plain, &message, 0));
	text.iov_base = at_edge("at the end", 10);
	message = message_of(&text, 1);
	TRY(sendmsg(plain, &message, 0));
	message.msg_name = at_edge(&to, to_size);
	text.iov_base = "name at the end";
	text.iov_len = 15;
	TRY(sendmsg(plain, &message, 0));
}

/* The stamp has no space. What is after the memory stays as it is. */
static void cut_stamp(void)
{
	char text[9], control[64];
	struct iovec space = { text, sizeof(text) };
	struct msghdr message = { .msg_iov = &space, .msg_iovlen = 1, .msg_control = control };
	int changed = 0;

	for (size_t bytes = CMSG_LEN(0); bytes < CMSG_LEN(16); bytes += 4) {
		memset(control, GUARD, sizeof(control));
		message.msg_controllen = bytes;
		send(local, "cut", 3, 0);
		TRY(recvmsg(local, &message, 0));
		for (size_t i = bytes; i < sizeof(control); i++)
			changed += control[i] != GUARD;
		printf("%zu of %zu, %d changed, %d\n", message.msg_controllen, bytes, changed,
		       message.msg_flags == MSG_CTRUNC);
	}
}

static void set_name(const char *address, const char *port)
{
	bool is_six = strchr(address, ':');

	to.any.sa_family = is_six ? AF_INET6 : AF_INET;
	to_size = is_six ? sizeof(to.six) : sizeof(to.four);
	inet_pton(to.any.sa_family, address,
		  is_six ? (void *)&to.six.sin6_addr : (void *)&to.four.sin_addr);
	to.four.sin_port = htons((uint16_t)atoi(port));
}

int main(int count, char **words)
{
	void *bad[] = { NULL, (void *)1, NULL, (void *)INT64_MIN };

	if (count != 3)
		return EXIT_FAILURE;
	set_name(words[1], words[2]);
	pages = mmap(NULL, 2 * PAGE, PROT_READ | PROT_WRITE, MAP_PRIVATE | MAP_ANONYMOUS, -1, 0);
	mprotect(pages + PAGE, PAGE, PROT_NONE);
	bad[2] = pages + PAGE;
	make_sockets();
	for (size_t i = 0; i < sizeof(bad) / sizeof(*bad); i++) {
		send_messages(bad[i]);
		send_bytes(bad[i]);
		use_names(bad[i]);
		receive(bad[i]);
	}
	use_edges();
	use_numbers();
	cut_stamp();
	return send(linked, "last", 4, 0) != 4;
}
