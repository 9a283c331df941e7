/* SPDX-License-Identifier: MIT OR Apache-2.0 */
/*
 * net.h - libtkrun-net.so: the calls by which a program on a node sends to other nodes. tkrun lets
 * programs load it if there is a --link. It hands datagrams to tkrun, which sends them when they
 * arrive, and lets tkrun make the connections of TCP. So receivers need nothing.
 */
#ifndef NET_H
#define NET_H

#include "message.h"

#include <errno.h>
#include <stdbool.h>
#include <stddef.h>
#include <sys/socket.h>

#define EXPORT __attribute__((visibility("default")))

/* The C library's function of this name. */
#define REAL(name)                                                           \
	({                                                                   \
		static __typeof__(&name) real_##name;                        \
		if (!real_##name)                                            \
			real_##name = (__typeof__(&name))net_real_call(#name); \
		real_##name;                                                 \
	})

/* Finds a function of the C library, or ends the process. */
void *net_real_call(const char *name);

/* The node of this process, and the addresses to which it has links. NULL if there are none. */
const struct peers *net_peers(void);
uint32_t net_node(void);

/* Returns the address in a name if there is a link to it, or none. The other returns whether it is
 * an address of this node. */
struct address net_address(const struct sockaddr *name, socklen_t length);
bool net_is_own(const struct sockaddr *name, socklen_t length);

/* Returns the address of this node of the family of another address, or none. */
struct address net_own(struct address other);

/* Returns whether the kernel could read the name of a socket. If not, its call returns the
 * error. */
bool net_can_read_name(const struct sockaddr *name, socklen_t length);

/* Returns the type of a socket, such as SOCK_DGRAM, or -1. It keeps errno. */
int net_type(int file);

/* Returns the domain of a socket, such as AF_INET6, or -1. It keeps errno. */
int net_domain(int file);

/* Returns whether a socket of IPv6 takes no IPv4. */
bool net_is_six_only(int file);

/* Returns whether the kernel lets a socket of a type send to an address by a name of a family. */
bool net_takes(int file, int type, sa_family_t family, struct address address);

/* Gives a socket that isn't bound a port, and this address, or none. */
void net_bind(int file, struct address address);

/* Hands a message and its files to tkrun. Returns 0 or an errno. */
int net_hand_over(struct message *message, const struct msghdr *content, const int *files,
		  size_t count);

/* Asks tkrun to look who gets what a socket sends to a name to which no link leads. */
void net_note_stray(int file, const struct sockaddr *name, socklen_t length);

/* Lets the kernel stamp a message that goes over a link to an address now, if the program asks for
 * it. */
void net_stamp(int file, const struct msghdr *message, struct address address);

/* Returns tkrun's entry of a connection of IPv6 by the port of its end, or NULL if it has none. */
const struct relay *net_relay(uint16_t port);

/* Sets errno, and returns -1. */
int net_refuse(int error);

#endif
