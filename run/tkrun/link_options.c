/* SPDX-License-Identifier: MIT OR Apache-2.0 */
/* link_options.c - parses --link NODE,NODE[,OPTION=VALUE].. */
#define _GNU_SOURCE
#include "options.h"
#include "seeds.h"

#include <math.h>
#include <stdio.h>
#include <stdlib.h>
#include <string.h>

enum { QUEUE_BYTES = 1000000 };

/* A unit, and by how much its numbers are multiplied. */
struct unit {
	const char *name;
	double factor;
};

static const struct unit TIMES[] = { { "", 1e9 }, { "s", 1e9 }, { "ms", 1e6 }, { "us", 1e3 },
				     { "ns", 1 } };
static const struct unit SIZES[] = { { "", 1 }, { "k", 1e3 }, { "M", 1e6 }, { "G", 1e9 },
				     { NULL, 0 } };

/* What an option of a link is: its place, its units, and its limits. */
struct kind {
	const char *name, *text;
	const struct unit *units;
	double least, most;
	size_t place;
};

#define PLACE(name) offsetof(struct link_options, name)

static const struct kind KINDS[] = {
	{ "delay", "a time from 0 to 1000 s, such as 20ms", TIMES, 0, 1e12, PLACE(delay) },
	{ "jitter", "a time from 0 to 1000 s, such as 5ms", TIMES, 0, 1e12, PLACE(jitter) },
	{ "rate", "bits per second from 1 to 1000G, such as 10M", SIZES, 1, 1e12, PLACE(rate) },
	{ "queue", "bytes from 0 to 1G, such as 64k", SIZES, 0, 1e9, PLACE(queue) },
	{ "seed", "a whole number below 2^53", SIZES, 0, 0x1p53 - 1, PLACE(seed) },
	{ "loss", "a part from 0 to 1", NULL, 0, 1, PLACE(loss) },
};

/* Parses a number with a unit. Returns false if it is none. */
static bool parse_amount(const struct kind *kind, const char *text, double *value)
{
	char *end = NULL;

	*value = strtod(text, &end);
	if (end == text || strspn(text, "0123456789.") != (size_t)(end - text))
		return false;
	if (!kind->units)
		return !*end && *value >= kind->least && *value <= kind->most;
	for (size_t i = 0; i < sizeof(TIMES) / sizeof(*TIMES) && kind->units[i].name; i++) {
		if (strcmp(end, kind->units[i].name))
			continue;
		*value *= kind->units[i].factor;
		return *value >= kind->least && *value <= kind->most;
	}
	return false;
}

static void set_value(struct link_options *link, const struct kind *kind, double value)
{
	char *place = (char *)link + kind->place;
	uint64_t whole = (uint64_t)llround(value);

	if (kind->units)
		memcpy(place, &whole, sizeof(whole));
	else
		memcpy(place, &value, sizeof(value));
}

/* Parses "OPTION=VALUE". */
static void parse_word(struct link_options *link, char *word, const char *words)
{
	char *text = strchr(word, '=');
	double value;

	if (text)
		*text++ = 0;
	for (size_t i = 0; i < sizeof(KINDS) / sizeof(*KINDS); i++) {
		if (strcmp(word, KINDS[i].name))
			continue;
		if (!text || !parse_amount(&KINDS[i], text, &value))
			fail(STATUS_WRONG, "--link %s: %s '%s' isn't %s", words, word,
			     text ? text : "", KINDS[i].text);
		set_value(link, &KINDS[i], value);
		link->has_seed |= !strcmp(word, "seed");
		return;
	}
	fail(STATUS_WRONG, "--link %s: '%s' is no option of a link", words, word);
}

/* Returns the number of a node that can have a link. */
static size_t find_end(const struct options *options, const char *name, const char *words)
{
	size_t node = name ? find_node(options, name) : 0;

	if (!name)
		fail(STATUS_WRONG, "--link %s: it isn't NODE,NODE[,OPTION=VALUE]..", words);
	if (!node)
		fail(STATUS_WRONG, "--link %s: there is no node '%s'", words, name);
	if (!has_address(&options->nodes[node - 1]))
		fail(STATUS_WRONG, "--link %s: the node '%s' has no address", words, name);
	return node;
}

/* Returns whether two nodes have addresses of one family. */
static bool share_family(const struct options *one, const struct options *other)
{
	bool is_shared = false;

	for (int i = 0; i < FAMILIES; i++)
		is_shared |= !address_is_none(one->addresses[i]) &&
			     !address_is_none(other->addresses[i]);
	return is_shared;
}

static void parse_link(const struct options *options, const char *words,
		       struct link_options *link)
{
	char *copy = strdup(words), *rest = copy, *word;

	if (!copy)
		fail(STATUS_FAILED, "out of memory");
	*link = (struct link_options){ .queue = QUEUE_BYTES };
	link->from = find_end(options, strsep(&rest, ","), words);
	link->to = find_end(options, strsep(&rest, ","), words);
	if (link->from == link->to)
		fail(STATUS_WRONG, "--link %s: a node has no link to itself", words);
	if (!share_family(&options->nodes[link->from - 1], &options->nodes[link->to - 1]))
		fail(STATUS_WRONG, "--link %s: one node has an address of IPv4, the other of IPv6",
		     words);
	while ((word = strsep(&rest, ",")))
		parse_word(link, word, words);
	if (!link->has_seed && options->has_seed)
		link->seed = seed_for(options->seed, SEED_LINKS);
	free(copy);
}

const struct link_options *find_link(const struct options *options, size_t from, size_t to)
{
	for (size_t i = 0; i < options->link_count; i++) {
		if (options->links[i].from == from && options->links[i].to == to)
			return &options->links[i];
	}
	return NULL;
}

void add_link(struct options *options, const char *words)
{
	options->link_words = reallocarray(options->link_words, options->link_count + 1,
					   sizeof(*options->link_words));
	if (!options->link_words)
		fail(STATUS_FAILED, "out of memory");
	options->link_words[options->link_count++] = words;
}

/* The other direction of a link has the same values, unless it has its own --link. */
static void add_other_directions(struct options *options)
{
	size_t count = options->link_count;

	for (size_t i = 0; i < count; i++) {
		struct link_options other = options->links[i];

		other.from = options->links[i].to;
		other.to = options->links[i].from;
		if (!find_link(options, other.from, other.to))
			options->links[options->link_count++] = other;
	}
}

void parse_links(struct options *options)
{
	size_t count = options->link_count;

	if (!count)
		return;
	if (options->counter != COUNTER_SLEEPS)
		fail(STATUS_WRONG, "--link needs --counter sleeps");
	options->links = calloc(2 * count, sizeof(*options->links));
	if (!options->links)
		fail(STATUS_FAILED, "out of memory");
	options->link_count = 0;
	for (size_t i = 0; i < count; i++) {
		struct link_options *link = &options->links[i];

		parse_link(options, options->link_words[i], link);
		if (find_link(options, link->from, link->to))
			fail(STATUS_WRONG, "--link %s: there is another one with these nodes",
			     options->link_words[i]);
		options->link_count++;
	}
	add_other_directions(options);
}
