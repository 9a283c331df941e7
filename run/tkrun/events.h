/* SPDX-License-Identifier: MIT OR Apache-2.0 */
/* events.h - what happens to the clocks of a node: by --plan, or by `tkrun ctl`. */
#ifndef EVENTS_H
#define EVENTS_H

#include "options.h"

enum action {
	ACTION_STEP,
	ACTION_FREQ,
	ACTION_SUSPEND,
	ACTION_RESUME,
	ACTION_LEAP,
	ACTION_PARTITION,
	ACTION_HEAL
};

/* An action on a node. `sec` and `nsec` are a step, which is sec + nsec / 10^9 s, or the length of
 * a suspension. */
struct event {
	uint64_t nanos; /* of the true time of the run */
	size_t node;	/* its number */
	size_t other;	/* of a partition and its end: that of the other node */
	enum action action;
	int64_t sec;
	uint32_t nsec;
	double ppm; /* the new error of the counter */
};

enum { SENTENCE_MOST = 256 };

/* Parses "NODE step|freq|suspend|leap [VALUE]" or "partition|heal NODE NODE", and changes the text.
 * Returns false with a sentence if it is wrong. */
bool event_parse(const struct options *options, char *text, struct event *event, char *sentence);

/* Parses "SEC[.NSEC]" with an optional sign, up to 9223372035 s. Returns what follows, or NULL. */
const char *parse_seconds(const char *text, int64_t *sec, uint32_t *nsec);

/* Reads the events of --plan. At a wrong line, ends tkrun with a sentence. */
void read_plan(const struct options *options);

/* Adds an event, after those of the same time. Ends tkrun if memory is missing. */
void events_add(const struct event *event);

/* Returns the time of the next event, or NEVER. */
uint64_t events_next(void);

/* Takes the next event if its time has come. */
bool events_take(uint64_t nanos, struct event *event);

#endif
