/* SPDX-License-Identifier: MIT OR Apache-2.0 */
/* net_halves.c - the bytes of one direction of a stream. */
#define _GNU_SOURCE
#include "net_streams.h"

#include "clocks/connection.h"
#include "grant.h"

#include <errno.h>
#include <stdlib.h>
#include <string.h>
#include <unistd.h>

enum {
	WINDOW = 4 << 20, /* the most bytes of one direction on their way */
	SEGMENT_LEAST = 1448,
	SEGMENT_MOST = 65536,
	SEGMENTS_IN_A_SECOND = 100, /* at least, if the rate allows them */
};

static struct half *other_half(const struct half *half)
{
	return &half->stream->halves[half == half->stream->halves];
}

static void close_stream(struct stream *stream)
{
	if (stream->is_closed)
		return;
	stream->is_closed = true;
	close(stream->halves[0].from);
	if (stream->halves[0].to >= 0)
		close(stream->halves[0].to);
	opening_end(stream->opening);
}

/* Lets the receiver find its connection reset. */
static void reset(struct half *half)
{
	const struct linger none = { .l_onoff = 1 };

	setsockopt(half->to, SOL_SOCKET, SO_LINGER, &none, sizeof(none));
	close_stream(half->stream);
}

/* Sends some bytes. With --seed the receiver has room for as many as its reads leave, and not for
 * as many as the kernel takes now. Returns how many, or -1. */
static ssize_t send_some(int file, const char *bytes, size_t size)
{
	struct receiver receiver;
	bool is_counted = turns_are_on() && connection_receiver(file, &receiver);
	size_t room = is_counted ? connection_room(&receiver) : size;
	ssize_t sent;

	if (!room) {
		errno = EAGAIN;
		return -1;
	}
	sent = send(file, bytes, size < room ? size : room, MSG_NOSIGNAL | MSG_DONTWAIT);
	if (sent > 0 && is_counted)
		connection_settle(file, &receiver, (size_t)sent);
	return sent;
}

/* Sends bytes. Returns false if the receiver has no room. If it is gone, they are dropped, and the
 * sender finds its connection reset. */
static bool send_bytes(struct segment *segment, uint64_t now)
{
	struct half *half = segment->half;

	while (segment->sent < segment->length) {
		ssize_t sent = send_some(half->to, segment->bytes + segment->sent,
					 segment->length - segment->sent);

		if (sent < 0 && errno == EAGAIN)
			return false;
		if (sent < 0) {
			half_send(other_half(half), KIND_RESET, NULL, 0, now);
			return true;
		}
		segment->sent += (size_t)sent;
	}
	return true;
}

static void end_half(struct half *half)
{
	shutdown(half->to, SHUT_WR);
	half->is_over = true;
	if (other_half(half)->is_over)
		close_stream(half->stream);
}

/* Connects to the server. Returns false if it can't accept yet. */
static bool open_half(struct half *half, uint64_t now)
{
	int server, error = opening_try(half->stream->opening, &server);

	if (error == EINPROGRESS)
		return false;
	half->to = other_half(half)->from = server;
	if (error)
		half_send(other_half(half), KIND_RESET, NULL, 0, now);
	return true;
}

/* Lets a segment go to the receiver. Returns false if it can't yet. */
static bool act_on(struct segment *segment, uint64_t now)
{
	struct half *half = segment->half;

	switch (segment->kind) {
	case KIND_OPEN:
		return open_half(half, now);
	case KIND_BYTES:
		return send_bytes(segment, now);
	case KIND_END:
		end_half(half);
		return true;
	case KIND_RESET:
		reset(half);
	}
	return true;
}

/* Does so with the first segment that has arrived. */
static bool pass_on(struct half *half, uint64_t now)
{
	struct segment *segment = half->first;

	if (!segment || half->stream->is_closed || !act_on(segment, now))
		return false;
	half->first = segment->next;
	if (!half->first)
		half->place = &half->first;
	half->on_way -= segment->length;
	free(segment);
	return true;
}

bool half_pass_on(struct half *half, uint64_t now)
{
	bool is_any = false;

	while (pass_on(half, now))
		is_any = true;
	return is_any;
}

static void arrive(struct flight *flight, uint64_t now)
{
	struct segment *segment = (struct segment *)flight;
	struct half *half = segment->half;

	half->stream->flights--;
	*half->place = segment;
	half->place = &segment->next;
	half_pass_on(half, now);
}

void half_send(struct half *half, enum kind kind, const char *bytes, size_t length, uint64_t now)
{
	struct segment *segment = net_allocate(sizeof(*segment) + length);
	uint64_t arrival = link_arrival(half->link, now, length);

	*segment = (struct segment){ .flight.arrive = arrive, .half = half, .kind = kind,
				     .length = length };
	if (length)
		memcpy(segment->bytes, bytes, length);
	half->on_way += length;
	half->is_ended |= kind == KIND_END || kind == KIND_RESET;
	half->last = arrival > half->last ? arrival : half->last;
	half->stream->flights++;
	flight_begin(&segment->flight, half->link, half->last);
}

/* Returns the most bytes of a segment: a hundredth of a second by the link's rate. */
static size_t segment_bytes(const struct link *link)
{
	uint64_t bytes = link->options.rate / 8 / SEGMENTS_IN_A_SECOND;

	if (!link->options.rate || bytes > SEGMENT_MOST)
		return SEGMENT_MOST;
	return bytes < SEGMENT_LEAST ? SEGMENT_LEAST : bytes;
}

/* Finds a reset that came after the end of the bytes, which only this error shows. */
static bool find_reset(struct half *half, uint64_t now)
{
	int error = 0;
	socklen_t length = sizeof(error);

	if (!half->is_ended || half->stream->is_closed)
		return false;
	getsockopt(half->from, SOL_SOCKET, SO_ERROR, &error, &length);
	if (error)
		half_send(half, KIND_RESET, NULL, 0, now);
	return error;
}

bool half_may_read(const struct half *half)
{
	return half->from >= 0 && !half->stream->is_closed && !half->is_ended &&
	       !half->link->is_cut && half->on_way < WINDOW;
}

static bool read_bytes(struct half *half, uint64_t now)
{
	static char bytes[SEGMENT_MOST];
	enum kind kind = KIND_BYTES;
	ssize_t length;

	if (!half_may_read(half) || link_is_full(half->link, now))
		return false;
	length = recv(half->from, bytes, segment_bytes(half->link), MSG_DONTWAIT);
	if (length < 0 && errno == EAGAIN)
		return false;
	if (length <= 0)
		kind = length ? KIND_RESET : KIND_END;
	half_send(half, kind, bytes, length < 0 ? 0 : (size_t)length, now);
	return true;
}

bool half_read(struct half *half, uint64_t now)
{
	return read_bytes(half, now) || find_reset(half, now);
}
