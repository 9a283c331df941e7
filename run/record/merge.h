/* SPDX-License-Identifier: MIT OR Apache-2.0 */
/* merge.h - the records of all nodes of a run in one order. */
#ifndef MERGE_H
#define MERGE_H

#include "clocks/machine.h"
#include "tkrun/options.h"
#include "tkrun/pace.h"

/* How a node moves with the common counter, starting at a reading. */
struct placed {
	struct pace pace;
	uint64_t reading;
};

/* The lines of one name in the file RECORD.nodes. */
struct place {
	char name[NODE_NAME_MOST + 1];
	struct placed *paces;
	size_t count;
};

/* The first node is that of the program. */
struct places {
	struct place truth, nodes[1 + NODES_MOST];
	size_t count;
};

/* Instead of a command: the counter of a node got another error. */
enum { LINE_ERROR = 1000 };

/* What happened on a node. */
struct line {
	uint64_t common;
	int64_t ahead; /* ns: REALTIME minus the true time, if `has_ahead` */
	struct order order; /* as script.h says */
	const struct timex *request;
	double ppm; /* of LINE_ERROR */
	uint32_t code, node;
	bool has_ahead;
};

struct merged {
	const char *record;
	struct places places;
	int64_t start; /* ns of REALTIME when the true time was 0 */
	struct line *lines;
	size_t count, room;
};

/* Read the file RECORD.nodes, and add the lines of one node's record. At a fault, they end tkrun
 * with a sentence. */
void places_read(struct places *places, const char *record);
void add_lines(struct merged *merged, uint32_t node);

/* `tkrun merge RECORD`: prints what happened on all nodes, and ends tkrun, unless these aren't its
 * arguments. */
void merge_records(int count, char **words);

#endif
