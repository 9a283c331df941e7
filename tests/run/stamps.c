/* SPDX-License-Identifier: MIT OR Apache-2.0 */
/*
 * Asks for the stamps of packets.
 *
 *     stamps MS | refused
 *
 * It receives each packet this many ms after it has sent it. The stamp must be between
 * the times of REALTIME before the packet was sent and after it was received. The clocks
 * of a counter that moves only with sleeps need more ms than the host takes. With
 * `refused`, no socket may have stamps.
 */
#define _GNU_SOURCE
#include "faults.h"

#include <netinet/in.h>
#include <stdbool.h>
#include <stdlib.h>
#include <sys/socket.h>
#include <sys/syscall.h>
#include <sys/time.h>
#include <time.h>
#include <unistd.h>

enum { SLACK_NANOS = 2000000 }; /* between the reads of two clocks */

static int64_t real_nanos(void)
{
	struct timespec now;

	clock_gettime(CLOCK_REALTIME, &now);
	return now.tv_sec * 1000000000 + now.tv_nsec;
}

/* Makes a socket that sends to itself. */
static int make_socket(void)
{
	struct sockaddr_in place = { .sin_family = AF_INET,
				     .sin_addr.s_addr =
					     htonl(INADDR_LOOPBACK) };
	socklen_t size = sizeof(place);
	int file = socket(AF_INET, SOCK_DGRAM, 0);

	CHECK(!bind(file, (struct sockaddr *)&place, size));
	CHECK(!getsockname(file, (struct sockaddr *)&place, &size));
	CHECK(!connect(file, (struct sockaddr *)&place, size));
	return file;
}

static int ask(int file, int name)
{
	int on = 1;

	return setsockopt(file, SOL_SOCKET, name, &on, sizeof(on));
}

/* Returns the stamp of a message in ns, or 0 if it has none. */
static int64_t stamp_of(struct msghdr *message)
{
	struct cmsghdr *part = CMSG_FIRSTHDR(message);
	struct timespec time = { 0 };
	struct timeval micros;

	if (!part || part->cmsg_level != SOL_SOCKET)
		return 0;
	if (part->cmsg_type == SCM_TIMESTAMPNS) {
		memcpy(&time, CMSG_DATA(part), sizeof(time));
	} else if (part->cmsg_type == SCM_TIMESTAMP) {
		memcpy(&micros, CMSG_DATA(part), sizeof(micros));
		time = (struct timespec){ micros.tv_sec,
					  micros.tv_usec * 1000 };
	}
	return time.tv_sec * 1000000000 + time.tv_nsec;
}

/* Receives a message by one of the calls. */
static bool receive(int file, int call, struct mmsghdr *message)
{
	struct msghdr *head = &message->msg_hdr;

	switch (call) {
	case 0:
		return recvmsg(file, head, 0) == 1;
	case 1:
		return recvmmsg(file, message, 1, 0, NULL) == 1;
	case 2:
		return syscall(SYS_recvmsg, file, head, 0) == 1;
	default:
		return syscall(SYS_recvmmsg, file, message, 1, 0, NULL) == 1;
	}
}

static void check_stamp(int file, int call, int millis)
{
	union {
		struct cmsghdr head;
		char bytes[256];
	} part;
	char text;
	struct iovec piece = { &text, 1 };
	struct mmsghdr message = { .msg_hdr = {
					   .msg_iov = &piece,
					   .msg_iovlen = 1,
					   .msg_control = &part,
					   .msg_controllen = sizeof(part),
				   } };
	int64_t before = real_nanos(), stamp;

	CHECK(send(file, "x", 1, 0) == 1);
	usleep((useconds_t)millis * 1000);
	CHECK(receive(file, call, &message));
	stamp = stamp_of(&message.msg_hdr);
	CHECK(stamp >= before - SLACK_NANOS);
	CHECK(stamp <= real_nanos() + SLACK_NANOS);
}

int main(int count, char **words)
{
	static const int NAMES[] = { SO_TIMESTAMP, SO_TIMESTAMPNS };
	bool is_refused = count > 1 && !strcmp(words[1], "refused");
	int millis = count > 1 ? atoi(words[1]) : 0;

	for (int i = 0; i < 2; i++) {
		int file = make_socket();

		if (is_refused)
			CHECK(ask(file, NAMES[i]) && errno == ENOPROTOOPT);
		else
			CHECK(!ask(file, NAMES[i]));
		for (int call = 0; call < 4 && !is_refused; call++)
			check_stamp(file, call, millis);
		CHECK(ask(file, SO_TIMESTAMPING) && errno == ENOPROTOOPT);
		close(file);
	}
	return faults > 0;
}
