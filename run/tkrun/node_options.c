/* SPDX-License-Identifier: MIT OR Apache-2.0 */
/* node_options.c - parses --node NAME[,OPTION=VALUE].. */
#define _GNU_SOURCE
#include "options.h"
#include "seeds.h"

#include <ctype.h>
#include <stdio.h>
#include <stdlib.h>
#include <string.h>

/* A record R has the file R.rows while the program runs, R.nodes next to those of the nodes, which
 * contains the true time by its name, and R.readers with --readers. The others are commands of
 * `tkrun ctl`. */
static const char *const RESERVED[] = { "rows", "nodes", "readers", TRUE_NAME, "partition", "heal" };

static const char *const OPTIONS[] = { "error-ppm",  "start", "ahead", "uptime", "script", "hz",
				       "bits",	     "maxsec", "wander-ppm", "seed", "address",
				       "bind", "step-after-reads" };

bool is_node_name(const char *text)
{
	size_t length = strspn(text, "abcdefghijklmnopqrstuvwxyzABCDEFGHIJKLMNOPQRSTUVWXYZ"
				     "0123456789_-");

	for (size_t i = 0; i < sizeof(RESERVED) / sizeof(*RESERVED); i++) {
		if (!strcmp(text, RESERVED[i]))
			return false;
	}
	return !text[length] && length <= NODE_NAME_MOST && isalpha((unsigned char)*text);
}

size_t find_node(const struct options *options, const char *name)
{
	size_t i = options->node_count;

	while (i && strcmp(options->nodes[i - 1].name, name))
		i--;
	return i;
}

void add_node(struct options *options, const char *words)
{
	if (options->node_count == NODES_MOST)
		fail(STATUS_WRONG, "--node: there are more than %d", NODES_MOST);
	options->node_words[options->node_count++] = words;
}

bool parse_node_option(struct options *options, const char *name, const char *value)
{
	if (!strcmp(name, "wander-ppm"))
		options->wander_ppm = decimal(name, value, 0, 100000);
	else if (!strcmp(name, "seed"))
		options->seed = whole(name, value, 0, UINT64_MAX);
	else
		return false;
	options->has_seed |= !strcmp(name, "seed");
	return true;
}

/* Parses "OPTION=VALUE". */
static void parse_word(struct options *node, char *word)
{
	char *value = strchr(word, '=');
	bool is_known = false;

	if (value)
		*value++ = 0;
	for (size_t i = 0; i < sizeof(OPTIONS) / sizeof(*OPTIONS); i++)
		is_known |= !strcmp(word, OPTIONS[i]);
	if (!is_known || !value)
		fail(STATUS_WRONG, is_known ? "'%s' has no value" : "'%s' is no option of a node",
		     word);
	parse_option(node, word, value);
}

static char *copy_of(const char *text, const char *ending)
{
	char *copy = NULL;

	if (asprintf(&copy, "%s%s%s", text, *ending ? "." : "", ending) < 0)
		fail(STATUS_FAILED, "out of memory");
	return copy;
}

/* Returns the options of all nodes, without those of which each node has its own. */
static struct options common_options(const struct options *all)
{
	struct options node = *all;

	node.node_count = node.link_count = 0;
	node.has_start = node.has_lead = node.has_ahead = node.has_uptime = false;
	node.ahead = 0;
	node.read_step_count = 0;
	node.script = NULL;
	node.seed = all->has_seed ? seed_for(all->seed, SEED_WALKS) : 0;
	node.has_seed = false;
	return node;
}

/* Clocks that a script opens have its uptime. */
static void parse_node(const struct options *all, const char *words, struct options *node)
{
	char *rest = copy_of(words, ""), *word = strsep(&rest, ",");

	*node = common_options(all);
	if (!is_node_name(word))
		fail(STATUS_WRONG,
		     "--node: '%s' isn't a name: a letter, and up to %d letters, digits, - and _",
		     word, NODE_NAME_MOST - 1);
	node->name = word;
	fail_within(node->name);
	while ((word = strsep(&rest, ",")))
		parse_word(node, word);
	if (all->record)
		node->record = copy_of(all->record, node->name);
	if (node->binds_own && !has_address(node))
		fail(STATUS_WRONG, "bind=own needs an address");
	if (node->wander_ppm != 0 && all->counter != COUNTER_SLEEPS)
		fail(STATUS_WRONG, "wander-ppm needs --counter sleeps");
	compare_options(node);
	node->has_uptime |= all->has_uptime && !node->script;
}

static void compare_addresses(const struct options *one, const struct options *other)
{
	for (int i = 0; i < FAMILIES; i++) {
		if (!address_is_none(one->addresses[i]) &&
		    address_is_same(one->addresses[i], other->addresses[i]))
			fail(STATUS_WRONG, "two nodes have this address");
	}
}

void parse_nodes(struct options *options)
{
	options->nodes = calloc(options->node_count + 1, sizeof(*options));
	if (!options->nodes)
		fail(STATUS_FAILED, "out of memory");
	for (size_t i = 0; i < options->node_count; i++) {
		parse_node(options, options->node_words[i], &options->nodes[i]);
		for (size_t j = 0; j < i; j++) {
			if (!strcmp(options->nodes[i].name, options->nodes[j].name))
				fail(STATUS_WRONG, "two nodes have this name");
			compare_addresses(&options->nodes[i], &options->nodes[j]);
		}
		fail_within(NULL);
	}
}
