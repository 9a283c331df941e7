/* SPDX-License-Identifier: MIT OR Apache-2.0 */
/*
 * message.h - what the library libtkrun-net.so hands to tkrun, in a datagram to the socket `net` in
 * the folder of the clocks. The file that the program sends by is part of it.
 */
#ifndef MESSAGE_H
#define MESSAGE_H

#include "clocks/address.h"

enum message_kind {
	MESSAGE_DATAGRAM, /* to be sent when it arrives */
	MESSAGE_CONNECT,  /* to be connected; a second file gets the errno of connect(2) */
	MESSAGE_STRAY	  /* was sent to a name to which no link leads */
};

/* If tkrun ends an attempt to connect a socket that doesn't block, it stores the errno as its
 * TCP_USER_TIMEOUT, which has no effect then: in the low bits of this number. */
enum { FAILURE = 0x746b0000, FAILURE_ERRORS = 0xffff };

/* The most bytes of control data, and of a datagram of UDP by IPv4 and by IPv6. */
enum { CONTROL_MOST = 512, DATAGRAM_MOST_FOUR = 65507, DATAGRAM_MOST = 65527 };

/* The control data and the bytes of a datagram come after this. */
struct message {
	uint32_t kind;		 /* enum message_kind */
	uint32_t node;		 /* the sender's */
	struct address address;	 /* the receiver's */
	uint32_t to_length;	 /* of `to`, or 0 if the socket is connected */
	uint32_t control_length; /* bytes */
	union socket_name to;
};

#endif
