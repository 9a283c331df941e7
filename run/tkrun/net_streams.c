/* SPDX-License-Identifier: MIT OR Apache-2.0 */
/* net_streams.c - all streams: the bytes of connections on their way between tkrun's ends. */
#define _GNU_SOURCE
#include "net_streams.h"

#include <poll.h>
#include <stdlib.h>

static struct stream *streams; /* the first ones read first */

static void free_half(struct half *half)
{
	while (half->first) {
		struct segment *segment = half->first;

		half->first = segment->next;
		free(segment);
	}
}

/* Frees the streams that are closed, and of which nothing is on its way. */
static void free_closed(void)
{
	struct stream **place = &streams;

	while (*place) {
		struct stream *stream = *place;

		if (!stream->is_closed || stream->flights) {
			place = &stream->next;
			continue;
		}
		*place = stream->next;
		free_half(&stream->halves[0]);
		free_half(&stream->halves[1]);
		free(stream);
	}
}

/* Reads a segment of each half that has one. Streams that were read come after the others next
 * time, so that none waits for ever on a full link. */
static bool read_once(uint64_t now)
{
	struct stream **place = &streams, *read = NULL, **end = &read;

	while (*place) {
		struct stream *stream = *place;
		bool is_any = half_pass_on(&stream->halves[0], now);

		is_any |= half_pass_on(&stream->halves[1], now);
		for (int i = 0; i < 2; i++)
			is_any |= half_read(&stream->halves[i], now);
		if (!is_any) {
			place = &stream->next;
			continue;
		}
		*place = stream->next;
		stream->next = NULL;
		*end = stream;
		end = &stream->next;
	}
	*place = read;
	return read;
}

bool streams_read(uint64_t now)
{
	bool is_any = false;

	while (read_once(now))
		is_any = true;
	free_closed();
	return is_any;
}

/* Returns when a half can be read again, if there are bytes that wait for it. */
static uint64_t next_of(const struct half *half)
{
	struct pollfd file = { half->from, POLLIN, 0 };

	if (!half->link->options.rate || !half_may_read(half) || poll(&file, 1, 0) <= 0)
		return NEVER;
	return link_room_at(half->link);
}

uint64_t streams_next(void)
{
	uint64_t least = NEVER;

	for (struct stream *stream = streams; stream; stream = stream->next) {
		for (int i = 0; i < 2; i++) {
			uint64_t next = next_of(&stream->halves[i]);

			least = next < least ? next : least;
		}
	}
	return least;
}

void stream_open(int client, struct opening *opening, size_t from, size_t to, uint64_t now)
{
	struct stream *stream = net_allocate(sizeof(*stream)), **end = &streams;

	stream->opening = opening;
	stream->halves[0] = (struct half){ .stream = stream, .from = client, .to = -1,
					   .link = link_between(from, to) };
	stream->halves[1] = (struct half){ .stream = stream, .from = -1, .to = client,
					   .link = link_between(to, from) };
	for (int i = 0; i < 2; i++)
		stream->halves[i].place = &stream->halves[i].first;
	while (*end)
		end = &(*end)->next;
	*end = stream;
	half_send(&stream->halves[0], KIND_OPEN, NULL, 0, now);
}
