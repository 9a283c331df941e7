/* SPDX-License-Identifier: MIT OR Apache-2.0 */
/* net.c - takes what programs hand to tkrun, and lets it go on. */
#define _GNU_SOURCE
#include "net.h"
#include "net/relays.h"

#include <errno.h>
#include <stdio.h>
#include <stdlib.h>
#include <string.h>
#include <sys/resource.h>
#include <sys/stat.h>
#include <unistd.h>

enum { FILES = 2 };

/* The most that is on its way at once. Until something arrives, programs wait that send more. */
enum { FLIGHTS_MOST = 16384 };

static int inbox = -1;
static size_t node_total;

void *net_allocate(size_t size)
{
	void *memory = calloc(1, size);

	if (!memory)
		fail(STATUS_FAILED, "out of memory");
	return memory;
}

static bool name_socket(struct sockaddr_un *address, const char *folder)
{
	*address = (struct sockaddr_un){ .sun_family = AF_UNIX };
	errno = ENAMETOOLONG;
	return snprintf(address->sun_path, sizeof(address->sun_path), "%s/net", folder) <
	       (int)sizeof(address->sun_path);
}

/* Each datagram and each connection on its way is a file. The program was started already. */
static void raise_limit(void)
{
	struct rlimit limit;

	if (getrlimit(RLIMIT_NOFILE, &limit))
		return;
	limit.rlim_cur = limit.rlim_max;
	setrlimit(RLIMIT_NOFILE, &limit);
}

/* Opens a socket that nobody reads, and whose queue is soon full. Without it, no datagram over a
 * link is stamped when it is sent. */
static struct endpoint open_sink(struct address address)
{
	struct endpoint name = { address, 0 };
	int file = net_make(address, SOCK_DGRAM), least = 1;

	setsockopt(file, SOL_SOCKET, SO_RCVBUF, &least, sizeof(least));
	if (net_call_with(bind, file, &name))
		fail(STATUS_FAILED, "cannot make the sink of --stamps: %s", strerror(errno));
	return net_name(file);
}

/* Opens the sinks. The machine may have no IPv6, if no node has it. */
static void open_sinks(struct run *run)
{
	const struct endpoint four = open_sink(address_of_four(htonl(SINK_ADDRESS)));
	struct endpoint six = { NO_ADDRESS, 0 };

	for (size_t i = 1; i < run->count; i++) {
		struct peers *peers = &run->nodes[i].machine.shared->peers;

		if (!six.port && !address_is_none(peers->own[FAMILY_SIX]))
			six = open_sink(RELAY_SIX);
		peers->sinks[FAMILY_FOUR] = four;
	}
	for (size_t i = 1; i < run->count; i++)
		run->nodes[i].machine.shared->peers.sinks[FAMILY_SIX] = six;
}

void net_open(struct run *run)
{
	const char *folder = run->nodes->folder;
	struct sockaddr_un address;
	int outbox; /* for processes that don't find its name */

	if (!run->nodes->options.link_count)
		return;
	links_open(run);
	net_check_addresses(run);
	node_total = run->count;
	inbox = socket(AF_UNIX, SOCK_DGRAM | SOCK_CLOEXEC | SOCK_NONBLOCK, 0);
	if (inbox < 0 || !name_socket(&address, folder) ||
	    bind(inbox, (struct sockaddr *)&address, sizeof(address)) ||
	    chmod(address.sun_path, 0600))
		fail(STATUS_FAILED, "cannot make the socket of --link: %s", strerror(errno));
	outbox = socket(AF_UNIX, SOCK_DGRAM | SOCK_CLOEXEC, 0);
	if (outbox >= 0 && !connect(outbox, (struct sockaddr *)&address, sizeof(address)))
		files_offer_net(outbox);
	if (run->nodes->options.has_stamps)
		open_sinks(run);
}

void net_remove(const char *folder)
{
	struct sockaddr_un address;

	if (name_socket(&address, folder))
		unlink(address.sun_path);
}

/* What a program has handed to tkrun. */
struct parcel {
	struct message message;
	char bytes[CONTROL_MOST + DATAGRAM_MOST + 1];
};

/* Stores the files that came with a parcel, or -1. */
static void find_files(struct msghdr *head, int files[FILES])
{
	struct cmsghdr *part = CMSG_FIRSTHDR(head);
	size_t bytes = part && part->cmsg_type == SCM_RIGHTS ? part->cmsg_len - CMSG_LEN(0) : 0;

	for (size_t i = 0; i < FILES; i++) {
		files[i] = -1;
		if (bytes >= (i + 1) * sizeof(int))
			memcpy(&files[i], CMSG_DATA(part) + i * sizeof(int), sizeof(int));
	}
}

/* Receives a parcel. Returns its bytes, or -1 if there is none. */
static ssize_t receive(struct parcel *parcel, int files[FILES])
{
	union {
		struct cmsghdr head;
		char bytes[CMSG_SPACE(FILES * sizeof(int))];
	} part;
	struct iovec text = { parcel, sizeof(*parcel) };
	struct msghdr head = { .msg_iov = &text,
			       .msg_iovlen = 1,
			       .msg_control = &part,
			       .msg_controllen = sizeof(part) };
	ssize_t length = recvmsg(inbox, &head, MSG_CMSG_CLOEXEC);
	static bool is_warned;

	if (length < 0)
		return length;
	find_files(&head, files);
	if (head.msg_flags & MSG_CTRUNC && !is_warned)
		fprintf(stderr, "tkrun: more sockets send to other nodes than tkrun may open files: "
				"what some of them have sent is lost\n");
	is_warned |= head.msg_flags & MSG_CTRUNC;
	return length;
}

static bool is_whole(const struct message *message, size_t length)
{
	return length >= sizeof(*message) && message->node < node_total &&
	       message->to_length <= sizeof(message->to) &&
	       message->control_length <= CONTROL_MOST &&
	       length - sizeof(*message) >= message->control_length;
}

static void close_all(const int files[FILES])
{
	for (size_t i = 0; i < FILES; i++) {
		if (files[i] >= 0)
			close(files[i]);
	}
}

/* Takes a parcel. Returns false if there is none. */
static bool take(uint64_t now)
{
	static struct parcel parcel;
	const struct message *message = &parcel.message;
	int files[FILES];
	ssize_t length = receive(&parcel, files);

	if (length < 0)
		return false;
	if (!is_whole(message, (size_t)length) || files[0] < 0)
		close_all(files);
	else if (message->kind == MESSAGE_CONNECT)
		take_connection(message, files[0], files[1], now);
	else if (message->kind == MESSAGE_STRAY)
		take_stray(message, files[0]);
	else
		take_datagram(message, parcel.bytes,
			      (size_t)length - sizeof(*message) - message->control_length, files[0],
			      now);
	return true;
}

/* What arrives lets a thread run before the next one does. */
bool net_serve(uint64_t now)
{
	static bool is_raised;
	bool is_any;

	if (inbox < 0)
		return false;
	if (!is_raised)
		raise_limit();
	is_raised = true;
	is_any = streams_read(now);
	while (flights_count() < FLIGHTS_MOST && take(now))
		is_any = true;
	return is_any || flights_arrive(now);
}

uint64_t net_next(void)
{
	uint64_t flight = flights_next(), stream = streams_next();

	return flight < stream ? flight : stream;
}
