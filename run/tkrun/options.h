/* SPDX-License-Identifier: MIT OR Apache-2.0 */
/* options.h - the arguments of tkrun. */
#ifndef OPTIONS_H
#define OPTIONS_H

#include "clocks/machine.h"

enum {
	STATUS_WRONG = 2,	/* a wrong option */
	STATUS_DIFFERS = 3,	/* a value that --check doesn't reproduce */
	STATUS_UNCHECKED = 4,	/* a value that --check couldn't compare */
	STATUS_UNCOVERED = 4,	/* a program that reads the host's clocks */
	STATUS_FAILED = 125,	/* tkrun itself failed */
	STATUS_NOT_RUN = 126,	/* PROGRAM can't be run */
	STATUS_NOT_FOUND = 127, /* there is no PROGRAM */
};

/* The longest uptime, in s: MONOTONIC ends a second later. */
enum { UPTIME_MOST = 946079999 };

/* The most nodes, and the most bytes of a node's name. */
enum { NODES_MOST = PEERS_MOST, NODE_NAME_MOST = 31 };

/* The name of the true time in the file RECORD.nodes. */
#define TRUE_NAME "true"

/* How the name of a node's folder begins. */
#define NODE_FOLDER "node."

/* One direction of a link between two nodes, by their numbers. */
struct link_options {
	size_t from, to;
	uint64_t delay, jitter; /* ns: each flight takes `delay`, and up to `jitter` more */
	double loss;		/* the part of the datagrams that are lost */
	uint64_t rate;		/* bits per second, or 0 for any */
	uint64_t queue;		/* the bytes that may wait for the rate */
	uint64_t seed;
	bool has_seed;
};

struct options {
	enum counter_kind counter;
	uint64_t hz; /* 0: the counter's own rate */
	uint32_t bits, maxsec;
	bool describes_counter; /* --hz, --bits or --maxsec is there */
	double error_ppm,
		speed; /* ppm; ns of the counter in a ns of the host */
	bool has_start, has_ahead, has_uptime;
	bool has_lead; /* --start says how far REALTIME is ahead */
	int64_t start_sec;
	uint32_t start_nsec;
	double ahead; /* s */
	int64_t uptime_sec;
	uint32_t uptime_nsec;
	const char *script, *record, *log, *plan;
	uint64_t every;
	uint64_t reads_most; /* in a record */
	uint64_t read_cost; /* ns by which a read moves a counter of sleeps */
	struct read_step read_steps[READ_STEPS_MOST]; /* in their order */
	uint32_t read_step_count;
	bool limits_reads;   /* --reads is there */
	bool has_readers;    /* the record says who made each read */
	bool is_checked, denies_set, has_stamps, has_file_times, is_quiet, is_static, is_lax;
	char **program;
	const char *name; /* of a node, or NULL */
	double wander_ppm; /* of a node */
	uint64_t seed;	   /* of the run, or of a node's walk */
	bool has_seed;
	const char *node_words[NODES_MOST];
	size_t node_count;
	struct options *nodes;
	struct address addresses[FAMILIES]; /* of a node, or none */
	bool binds_own; /* bind=own */
	const char **link_words;
	size_t link_count;
	struct link_options *links; /* one for each direction */
};

/* Parses the arguments. At a wrong one, ends tkrun with a sentence and
 * STATUS_WRONG. */
void parse_options(int count, char **words, struct options *options);

/* Return the number of an option's value, or end tkrun with a sentence. */
uint64_t whole(const char *option, const char *text, uint64_t least, uint64_t most);
double decimal(const char *option, const char *text, double least, double most);

/* Parses an option that only nodes have. Returns false if it isn't one. */
bool parse_node_option(struct options *options, const char *name, const char *value);

/* Parses ".NSEC", of one to nine digits, or nothing. Returns what follows. */
const char *parse_nsec(const char *text, uint32_t *nsec);

/* Parse the value of --start: a time, and the same or a lead, with " xSPEED" or without. */
void parse_start(struct options *options, const char *text);
void parse_start_words(struct options *options, const char *text);

/* Adds a step that comes after a number of reads. */
void parse_read_step(struct options *options, const char *text);

/* Parses the value of an option with this name. */
void parse_option(struct options *options, const char *name, const char *value);

/* Ends tkrun if two options contradict each other. A node has an error with any counter. */
void compare_options(const struct options *options);

/* Adds the words of a --node, and parses those of all, once the other options are known. */
void add_node(struct options *options, const char *words);
void parse_nodes(struct options *options);

/* Adds the words of a --link, and parses those of all, once the nodes are known. */
void add_link(struct options *options, const char *words);
void parse_links(struct options *options);

/* Returns the link from one node to another, or NULL. */
const struct link_options *find_link(const struct options *options, size_t from, size_t to);

/* Returns the number of a node, or 0 if there is none with the name. */
size_t find_node(const struct options *options, const char *name);

/* Adds an address of a node. Ends tkrun if it isn't one. */
void parse_address(struct options *node, const char *text);

/* Returns whether a node has an address. */
bool has_address(const struct options *node);

/* Returns whether a text may be the name of a node. */
bool is_node_name(const char *text);

/* Names the node that the sentences of `fail` are about, or none if it is NULL. */
void fail_within(const char *name);

/* Prints a sentence after "tkrun: ", and ends tkrun. */
__attribute__((noreturn, format(printf, 2, 3))) void
fail(int status, const char *form, ...);

/* Prints the usage of tkrun. */
void print_usage(void);

#endif
