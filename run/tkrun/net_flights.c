/* SPDX-License-Identifier: MIT OR Apache-2.0 */
/* net_flights.c - what is on its way: a heap, of which the first one arrives first. */
#define _GNU_SOURCE
#include "net.h"

#include <stdlib.h>

static struct flight **heap;
static size_t count, room;

static bool is_before(const struct flight *a, const struct flight *b)
{
	if (a->arrival != b->arrival)
		return a->arrival < b->arrival;
	return a->place != b->place ? a->place < b->place : a->number < b->number;
}

/* Swaps two flights if the first isn't before the second. Returns whether it has. */
static bool put_in_order(size_t first, size_t second)
{
	struct flight *flight = heap[first];

	if (!is_before(heap[second], flight))
		return false;
	heap[first] = heap[second];
	heap[second] = flight;
	return true;
}

void flight_begin(struct flight *flight, struct link *link, uint64_t arrival)
{
	size_t at = count++;

	flight->arrival = arrival;
	flight->place = link->place;
	flight->number = link->flights++;
	if (count > room) {
		room = 2 * count;
		heap = reallocarray(heap, room, sizeof(*heap));
		if (!heap)
			fail(STATUS_FAILED, "out of memory");
	}
	heap[at] = flight;
	while (at && put_in_order((at - 1) / 2, at))
		at = (at - 1) / 2;
}

uint64_t flights_next(void)
{
	return count ? heap[0]->arrival : NEVER;
}

size_t flights_count(void)
{
	return count;
}

/* Moves the first flight down to its place. */
static void sink_first(void)
{
	size_t at = 0, least;

	for (;;) {
		least = 2 * at + 1;
		if (least + 1 < count && is_before(heap[least + 1], heap[least]))
			least++;
		if (least >= count || !put_in_order(at, least))
			return;
		at = least;
	}
}

bool flights_arrive(uint64_t now)
{
	struct flight *first;

	if (flights_next() > now)
		return false;
	first = heap[0];
	heap[0] = heap[--count];
	sink_first();
	first->arrive(first, now);
	return true;
}
