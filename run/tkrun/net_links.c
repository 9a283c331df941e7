/* SPDX-License-Identifier: MIT OR Apache-2.0 */
/* net_links.c - the links between nodes: what they lose, and when the rest arrives. */
#define _GNU_SOURCE
#include "net.h"
#include "splitmix.h"

#include <stdlib.h>

static struct link *links;
static size_t count;
static const struct options *options;

void links_open(struct run *run)
{
	options = &run->nodes->options;
	count = options->link_count;
	links = net_allocate(count * sizeof(*links) + 1);
	for (size_t i = 0; i < count; i++) {
		struct link *link = &links[i];
		const struct options *from, *to;
		struct peers *peers;

		link->options = options->links[i];
		link->place = i;
		from = &options->nodes[link->options.from - 1];
		to = &options->nodes[link->options.to - 1];
		peers = &run->nodes[link->options.from].machine.shared->peers;
		peers->binds_own = from->binds_own;
		for (int family = 0; family < FAMILIES; family++) {
			peers->own[family] = from->addresses[family];
			peers->of[family][link->options.to - 1] = to->addresses[family];
		}
		peers->count++;
	}
}

struct link *link_between(size_t from, size_t to)
{
	for (size_t i = 0; i < count; i++) {
		if (links[i].options.from == from && links[i].options.to == to)
			return &links[i];
	}
	return NULL;
}

size_t node_at(struct address address)
{
	size_t i = address_is_none(address) ? 0 : options->node_count;
	int family = address_family(address);

	while (i && !address_is_same(options->nodes[i - 1].addresses[family], address))
		i--;
	return i;
}

void links_cut(size_t one, size_t other, bool is_cut)
{
	link_between(one, other)->is_cut = is_cut;
	link_between(other, one)->is_cut = is_cut;
}

/* Returns the next random number of a link: from 0, and below 1. The numbers of two links don't
 * depend on each other. */
static double draw(struct link *link)
{
	const struct link_options *o = &link->options;
	uint64_t start = splitmix_mix(o->seed + 1) + splitmix_mix(o->from << 8 | o->to);
	uint64_t state = start + ++link->draws * SPLITMIX_STEP;

	return (double)(splitmix_mix(state) >> 11) * 0x1p-53;
}

bool link_loses(struct link *link)
{
	return (draw(link) < link->options.loss) | link->is_cut;
}

/* Returns the bytes that wait for the rate. */
static uint64_t backlog(const struct link *link, uint64_t now)
{
	unsigned __int128 nanos = link->busy > now ? link->busy - now : 0;

	return (uint64_t)(nanos * link->options.rate / 8 / NANOS);
}

bool link_is_full(const struct link *link, uint64_t now)
{
	return link->options.rate && backlog(link, now) > link->options.queue;
}

uint64_t link_room_at(const struct link *link)
{
	unsigned __int128 bits = (unsigned __int128)link->options.queue * 8 * NANOS;
	uint64_t span = (uint64_t)(bits / link->options.rate);

	return link->busy > span ? link->busy - span : 0;
}

/* Returns when the rate has let some bytes go. */
static uint64_t departure(struct link *link, uint64_t now, size_t bytes)
{
	unsigned __int128 parts;

	if (!link->options.rate)
		return now;
	if (link->busy < now) {
		link->busy = now;
		link->rest = 0;
	}
	parts = (unsigned __int128)bytes * 8 * NANOS + link->rest;
	link->busy += (uint64_t)(parts / link->options.rate);
	link->rest = (uint64_t)(parts % link->options.rate);
	return link->busy;
}

uint64_t link_arrival(struct link *link, uint64_t now, size_t bytes)
{
	double jitter = draw(link) * (double)link->options.jitter;

	return departure(link, now, bytes) + link->options.delay + (uint64_t)jitter;
}
