/* SPDX-License-Identifier: MIT OR Apache-2.0 */
/* events.c - the list of events to come, and the file of --plan. */
#define _GNU_SOURCE
#include "events.h"

#include <errno.h>
#include <stdio.h>
#include <stdlib.h>
#include <string.h>

static struct event *events; /* in the order in which they come */
static size_t count, next;

void events_add(const struct event *event)
{
	struct event *larger = reallocarray(events, count + 1, sizeof(*events));
	size_t place = count;

	if (!larger)
		fail(STATUS_FAILED, "out of memory");
	events = larger;
	while (place > next && events[place - 1].nanos > event->nanos)
		place--;
	memmove(&events[place + 1], &events[place], (count - place) * sizeof(*events));
	events[place] = *event;
	count++;
}

uint64_t events_next(void)
{
	return next < count ? events[next].nanos : NEVER;
}

bool events_take(uint64_t nanos, struct event *event)
{
	if (next == count || events[next].nanos > nanos)
		return false;
	*event = events[next++];
	return true;
}

/* Parses "at SEC[.NSEC] EVENT". Returns false with a sentence if it is wrong. */
static bool parse_line(const struct options *options, char *text, char *sentence)
{
	const char *word = strsep(&text, " "), *time = text ? strsep(&text, " ") : NULL, *end;
	struct event event = { 0 };
	int64_t sec;
	uint32_t nsec;

	if (strcmp(word, "at") || !time || !text) {
		strcpy(sentence, "it isn't 'at SEC NODE COMMAND'");
		return false;
	}
	end = parse_seconds(time, &sec, &nsec);
	if (!end || *end || sec < 0) {
		snprintf(sentence, SENTENCE_MOST, "'%.64s' isn't a time: SEC[.NSEC]", time);
		return false;
	}
	if (!event_parse(options, text, &event, sentence))
		return false;
	event.nanos = (uint64_t)sec * NANOS + nsec;
	events_add(&event);
	return true;
}

/* Returns whether a line says nothing: it is empty, or a comment. */
static bool is_comment(const char *line)
{
	return !line[strspn(line, " ")] || *line == '#';
}

void read_plan(const struct options *options)
{
	FILE *file = options->plan ? fopen(options->plan, "re") : NULL;
	char *line = NULL, sentence[SENTENCE_MOST];
	size_t size = 0, number = 0;

	if (!options->plan)
		return;
	while (file && getline(&line, &size, file) >= 0) {
		number++;
		line[strcspn(line, "\n")] = 0;
		if (!is_comment(line) && !parse_line(options, line, sentence))
			fail(STATUS_WRONG, "--plan: line %zu: %s", number, sentence);
	}
	if (!file || ferror(file))
		fail(STATUS_WRONG, "--plan: cannot read '%s': %s", options->plan, strerror(errno));
	free(line);
	fclose(file);
}
