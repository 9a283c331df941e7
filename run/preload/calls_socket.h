/* SPDX-License-Identifier: MIT OR Apache-2.0 */
/* calls_socket.h - sockets of TCP, with a counter of sleeps. */
#ifndef CALLS_SOCKET_H
#define CALLS_SOCKET_H

#include "calls.h"

#include <sys/socket.h>

/* Makes the call setsockopt for TCP_NODELAY. */
int set_no_delay(struct machine *m, int file, const void *value,
		 socklen_t length);

#endif
