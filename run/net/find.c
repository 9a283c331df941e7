/* SPDX-License-Identifier: MIT OR Apache-2.0 */
/* find.c - finds the node of a process, and hands messages to tkrun. */
#define _GNU_SOURCE
#include "net.h"
#include "clocks/machine.h"

#include <dlfcn.h>
#include <stdio.h>
#include <stdlib.h>
#include <string.h>
#include <sys/un.h>

static struct {
	struct machine machine;
	struct sockaddr_un socket; /* of tkrun */
	atomic_int state;	   /* 0: not looked up; 1: no links; 2: links */
} library;

void *net_real_call(const char *name)
{
	void *found = dlsym(RTLD_NEXT, name);

	if (!found)
		abort();
	return found;
}

/* Stores the name of tkrun's socket, which is in the folder of the run: that of the node is in
 * it. */
static void find_socket(const char *folder)
{
	int length = (int)strlen(folder);
	const char *last = strrchr(folder, '/');

	if (last && !strncmp(last, "/node.", 6))
		length = (int)(last - folder);
	library.socket.sun_family = AF_UNIX;
	snprintf(library.socket.sun_path, sizeof(library.socket.sun_path), "%.*s/net", length,
		 folder);
}

/* Finds the node by the environment, or by asking tkrun. */
__attribute__((noinline, cold)) static void find_links(void)
{
	const char *folder = getenv("TKRUN");
	int error = errno;
	bool is_found = (folder && machine_attach(&library.machine, folder)) ||
			machine_attach(&library.machine, NULL);

	if (folder)
		find_socket(folder);
	is_found = is_found && library.machine.shared->peers.count;
	atomic_store(&library.state, is_found ? 2 : 1);
	errno = error;
}

/* Before main, where the environment is still that of the start. */
__attribute__((constructor)) static void start(void)
{
	net_peers();
}

const struct peers *net_peers(void)
{
	int now = atomic_load_explicit(&library.state, memory_order_acquire);

	if (!now) {
		find_links();
		now = atomic_load(&library.state);
	}
	return now == 2 ? &library.machine.shared->peers : NULL;
}

const struct relay *net_relay(uint16_t port)
{
	struct shared_page *shared = library.machine.shared;

	return shared->peers.has_relays ? &shared_relays(shared)->of[port] : NULL;
}

uint32_t net_node(void)
{
	return library.machine.shared->node;
}

/* Opens a socket to tkrun. Returns its number, or minus an error. */
static int open_socket(void)
{
	bool is_known = library.socket.sun_family == AF_UNIX;
	long file = host_call(SYS_socket, AF_UNIX, SOCK_DGRAM | SOCK_CLOEXEC, 0, 0, 0, 0);

	if (file < 0 || (is_known && !host_call(SYS_connect, file, (long)&library.socket,
						sizeof(library.socket), 0, 0, 0)))
		return (int)file;
	host_call(SYS_close, file, 0, 0, 0, 0, 0);
	return (int)host_ask_file(FILE_NET);
}

/* All system calls are made without the C library, so no thread is cancelled here. */
int net_hand_over(struct message *message, const struct msghdr *content, const int *files,
		  size_t count)
{
	union {
		struct cmsghdr head;
		char bytes[CMSG_SPACE(2 * sizeof(int))];
	} part = { .head = { CMSG_LEN(count * sizeof(int)), SOL_SOCKET, SCM_RIGHTS } };
	size_t texts = content ? content->msg_iovlen : 0;
	struct iovec text[2 + texts];
	struct msghdr out = { .msg_iov = text,
			      .msg_iovlen = 2 + texts,
			      .msg_control = &part,
			      .msg_controllen = CMSG_SPACE(count * sizeof(int)) };
	int file = open_socket();
	long sent;

	if (file < 0)
		return ENOBUFS;
	text[0] = (struct iovec){ message, sizeof(*message) };
	text[1] = (struct iovec){ content ? content->msg_control : NULL, message->control_length };
	for (size_t i = 0; i < texts; i++)
		text[2 + i] = content->msg_iov[i];
	memcpy(CMSG_DATA(&part.head), files, count * sizeof(int));
	do {
		sent = host_call(SYS_sendmsg, file, (long)&out, MSG_NOSIGNAL, 0, 0, 0);
	} while (sent == -EINTR);
	host_call(SYS_close, file, 0, 0, 0, 0, 0);
	return sent < 0 ? (int)-sent : 0;
}

int net_refuse(int error)
{
	errno = error;
	return -1;
}
