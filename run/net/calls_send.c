/* SPDX-License-Identifier: MIT OR Apache-2.0 */
/* calls_send.c - the calls that send datagrams. */
#define _GNU_SOURCE
#include "net.h"
#include "clocks/host.h"

#include <string.h>
#include <sys/syscall.h>
#include <sys/uio.h>
#include <unistd.h>

/* The parts of a message that the kernel takes, without two that tkrun needs. */
enum { TEXTS_MOST = UIO_MAXIOV - 2 };

/* Returns whether the kernel could read a message, apart from its name and its bytes. If not, its
 * call returns the error. */
static bool can_read(const struct msghdr *message)
{
	return host_can_read(message, sizeof(*message)) && message->msg_iovlen <= UIO_MAXIOV &&
	       host_can_read(message->msg_iov,
			     message->msg_iovlen * sizeof(*message->msg_iov)) &&
	       host_can_read(message->msg_control, message->msg_controllen < CONTROL_MOST
							   ? message->msg_controllen
							   : CONTROL_MOST);
}

/* Returns the bytes of a message's name that the kernel reads, unless it refuses the name. */
static socklen_t name_length(const struct msghdr *message)
{
	const int most = sizeof(struct sockaddr_storage);

	return (int)message->msg_namelen < most ? message->msg_namelen : (socklen_t)most;
}

/* Returns the address of a node to which a socket of UDP sends a message, or none. */
static struct address receiver_of(int file, const struct msghdr *message)
{
	struct sockaddr_storage peer;
	socklen_t length = sizeof(peer);
	struct address address;
	sa_family_t family;

	if (!net_peers() || net_type(file) != SOCK_DGRAM || !can_read(message))
		return NO_ADDRESS;
	if (message->msg_name && message->msg_namelen) {
		address = net_address(message->msg_name, name_length(message));
		if (address_is_none(address))
			return address;
		family = ((const struct sockaddr *)message->msg_name)->sa_family;
		return net_takes(file, SOCK_DGRAM, family, address) ? address : NO_ADDRESS;
	}
	if (host_call(SYS_getpeername, file, (long)&peer, (long)&length, 0, 0, 0))
		return NO_ADDRESS;
	return net_address((struct sockaddr *)&peer, length);
}

/* Returns the bytes of a message, which may overflow if they aren't there. */
static size_t length_of(const struct msghdr *message)
{
	size_t length = 0;

	for (size_t i = 0; i < message->msg_iovlen && i < TEXTS_MOST && length <= DATAGRAM_MOST; i++)
		length += message->msg_iov[i].iov_len;
	return length;
}

/* Returns the error that an earlier datagram has met, or 0. */
static int pending_error(int file)
{
	socklen_t length = sizeof(int);
	int error = 0;

	host_call(SYS_getsockopt, file, SOL_SOCKET, SO_ERROR, (long)&error, (long)&length, 0);
	return error;
}

/* Returns the most bytes of a datagram to an address. */
static size_t most_to(struct address address)
{
	return address_family(address) == FAMILY_FOUR ? DATAGRAM_MOST_FOUR : DATAGRAM_MOST;
}

/* Hands a datagram to tkrun. Returns its bytes, or minus an error. */
static ssize_t hand_over(int file, const struct msghdr *content, struct address address)
{
	struct message message = { .kind = MESSAGE_DATAGRAM, .node = net_node(), .address = address };
	size_t length = length_of(content);
	int error = pending_error(file);

	if (error)
		return -error;
	if (address_is_none(net_own(address)))
		return -ENETUNREACH;
	if (length > most_to(address) || content->msg_iovlen > TEXTS_MOST)
		return -EMSGSIZE;
	if (content->msg_control && content->msg_controllen > CONTROL_MOST)
		return -ENOBUFS;
	message.control_length = content->msg_control ? (uint32_t)content->msg_controllen : 0;
	if (content->msg_name) {
		message.to_length = content->msg_namelen < sizeof(message.to)
					    ? content->msg_namelen
					    : sizeof(message.to);
		memcpy(&message.to, content->msg_name, message.to_length);
	}
	net_bind(file, NO_ADDRESS);
	net_stamp(file, content, address);
	error = net_hand_over(&message, content, &file, 1);
	return error ? -error : (ssize_t)length;
}

/* Sends a message, if it is one to another node. Returns false if it isn't. It leaves errno, unless
 * that fails. */
static bool send_over(int file, const struct msghdr *message, int flags, ssize_t *result)
{
	struct address address = flags & MSG_OOB ? NO_ADDRESS : receiver_of(file, message);

	if (address_is_none(address))
		return false;
	*result = hand_over(file, message, address);
	if (*result < 0)
		*result = net_refuse((int)-*result);
	return true;
}

/* Sends a message that isn't one over a link. */
static ssize_t send_beside(int file, const struct msghdr *message, int flags)
{
	ssize_t result = REAL(sendmsg)(file, message, flags);

	if (result >= 0 && message->msg_name)
		net_note_stray(file, message->msg_name, message->msg_namelen);
	return result;
}

EXPORT ssize_t sendmsg(int file, const struct msghdr *message, int flags)
{
	ssize_t result;

	if (net_peers() && send_over(file, message, flags, &result))
		return result;
	return send_beside(file, message, flags);
}

/* Stores the length of a datagram that was sent. If the kernel couldn't, returns false with errno. */
static bool store_length(int file, unsigned int *place, ssize_t length)
{
	socklen_t size = sizeof(*place);

	if (host_call(SYS_getsockopt, file, SOL_SOCKET, SO_TYPE, (long)place, (long)&size, 0) ==
	    -EFAULT) {
		net_refuse(EFAULT);
		return false;
	}
	*place = (unsigned int)length;
	return true;
}

EXPORT int sendmmsg(int file, struct mmsghdr *messages, unsigned int count, int flags)
{
	ssize_t result;

	if (!net_peers() || !count)
		return REAL(sendmmsg)(file, messages, count, flags);
	count = count < UIO_MAXIOV ? count : UIO_MAXIOV;
	for (unsigned int i = 0; i < count; i++) {
		if (!send_over(file, &messages[i].msg_hdr, flags, &result))
			result = send_beside(file, &messages[i].msg_hdr, flags);
		if (result < 0 || !store_length(file, &messages[i].msg_len, result))
			return i ? (int)i : -1;
	}
	return (int)count;
}

/* Programs that wait for an answer to their first packet of TCP connect without it. */
EXPORT ssize_t sendto(int file, const void *bytes, size_t length, int flags,
		      __CONST_SOCKADDR_ARG to, socklen_t to_length)
{
	const struct sockaddr *name = to.__sockaddr__;
	struct iovec text = { (void *)bytes, length };
	struct msghdr message = { .msg_name = (void *)name,
				  .msg_namelen = name ? to_length : 0,
				  .msg_iov = &text,
				  .msg_iovlen = 1 };
	/* the kernel refuses a name of no bytes or of too many, which it takes from sendmsg */
	bool may_go_over = !name || (to_length && to_length <= sizeof(struct sockaddr_storage));
	ssize_t result;

	if (flags & MSG_FASTOPEN && !address_is_none(net_address(name, to_length)))
		return net_refuse(EOPNOTSUPP);
	if (may_go_over && net_peers() && send_over(file, &message, flags, &result))
		return result;
	result = REAL(sendto)(file, bytes, length, flags, to, to_length);
	if (result >= 0 && name)
		net_note_stray(file, name, to_length);
	return result;
}

EXPORT ssize_t send(int file, const void *bytes, size_t length, int flags)
{
	struct iovec text = { (void *)bytes, length };
	const struct msghdr message = { .msg_iov = &text, .msg_iovlen = 1 };
	ssize_t result;

	if (net_peers() && send_over(file, &message, flags, &result))
		return result;
	return REAL(send)(file, bytes, length, flags);
}

EXPORT ssize_t write(int file, const void *bytes, size_t length)
{
	struct iovec text = { (void *)bytes, length };
	const struct msghdr message = { .msg_iov = &text, .msg_iovlen = 1 };
	ssize_t result;

	if (net_peers() && send_over(file, &message, 0, &result))
		return result;
	return REAL(write)(file, bytes, length);
}

/* The kernel's call sends no datagram without bytes. */
EXPORT ssize_t writev(int file, const struct iovec *texts, int count)
{
	const struct msghdr message = { .msg_iov = (struct iovec *)texts,
					.msg_iovlen = count < 0 ? 0 : (size_t)count };
	ssize_t result;

	if (net_peers() && count <= UIO_MAXIOV && can_read(&message) && length_of(&message) &&
	    send_over(file, &message, 0, &result))
		return result;
	return REAL(writev)(file, texts, count);
}
