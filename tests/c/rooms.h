/* SPDX-License-Identifier: MIT OR Apache-2.0 */
/*
 * Rooms: pages whose neighbours can't be accessed. A call that reads or writes
 * past a value at the begin or the end of a room faults.
 */
#ifndef ROOMS_H
#define ROOMS_H

#include <stddef.h>

struct room {
	unsigned char *page;
};

/* A room for each argument of a call. */
struct rooms {
	struct room counter, clock, snapshot, other, ntp;
	struct room words, time, frequency, tick;
	struct room stamps, out, done;
};

extern struct rooms rooms;

/* Makes all rooms. Ends the program if there is no memory. */
void make_rooms(void);

/* Returns the address of `size` bytes at the begin or the end of the page. */
void *place(struct room room, size_t size);

/* Fills a room with random bytes, and stores a copy of them. */
void *fill(struct room room, void *copy, size_t size);

/* Copies a value into a room. */
void *put(struct room room, const void *value, size_t size);

#endif
