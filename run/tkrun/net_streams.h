/* SPDX-License-Identifier: MIT OR Apache-2.0 */
/* net_streams.h - a stream: two connections of TCP that tkrun joins. */
#ifndef NET_STREAMS_H
#define NET_STREAMS_H

#include "net.h"

enum kind {
	KIND_OPEN, /* the last packet of those that connect: the server accepts the connection */
	KIND_BYTES,
	KIND_END, /* of all bytes */
	KIND_RESET
};

/* What is on its way. */
struct segment {
	struct flight flight;
	struct half *half;
	struct segment *next;
	enum kind kind;
	size_t length, sent;
	char bytes[];
};

/* One direction of a stream. */
struct half {
	struct stream *stream;
	struct link *link;
	int from, to; /* or -1, as long as the server hasn't accepted */
	uint64_t last;		/* when the last segment arrives */
	size_t on_way;		/* bytes that were read, and not sent */
	struct segment *first;	/* those that have arrived, and weren't sent */
	struct segment **place; /* of the next one */
	bool is_ended;		/* no more is read */
	bool is_over;		/* the end was sent */
};

struct stream {
	struct stream *next;
	struct half halves[2]; /* from the client, and to it */
	struct opening *opening;
	size_t flights;
	bool is_closed;
};

/* Lets a segment go. None arrives before the one that was sent before it. */
void half_send(struct half *half, enum kind kind, const char *bytes, size_t length, uint64_t now);

/* Let the segments go to the receiver that have arrived, and read a segment, if the link lets it go
 * now. Return whether there was one. */
bool half_pass_on(struct half *half, uint64_t now);
bool half_read(struct half *half, uint64_t now);

/* Returns whether more may be on its way. */
bool half_may_read(const struct half *half);

#endif
