/* SPDX-License-Identifier: MIT OR Apache-2.0 */
/* event_words.c - parses the words of an event. */
#define _GNU_SOURCE
#include "events.h"

#include <errno.h>
#include <stdio.h>
#include <stdlib.h>
#include <string.h>

/* The longest suspension and step, in s: those of a RESUME. */
static const int64_t SECONDS_MOST = 9223372035;

/* The words of an action, and what its value is. A plan has no word for the end of a suspension. */
static const struct {
	const char *word, *value;
} ACTIONS[] = {
	[ACTION_STEP] = { "step", "step needs seconds: [+-]SEC[.NSEC]" },
	[ACTION_FREQ] = { "freq", "freq needs ppm, from -500000 to 1000000" },
	[ACTION_SUSPEND] = { "suspend", "suspend needs seconds: SEC[.NSEC]" },
	[ACTION_LEAP] = { "leap", "leap has no value" },
};

const char *parse_seconds(const char *text, int64_t *sec, uint32_t *nsec)
{
	bool is_negative = *text == '-';
	const char *digits = text + (is_negative || *text == '+');
	const char *rest;
	char *end = NULL;

	errno = 0;
	*sec = strtoll(digits, &end, 10);
	if (*digits < '0' || *digits > '9' || errno || *sec > SECONDS_MOST)
		return NULL;
	rest = parse_nsec(end, nsec);
	if (is_negative) {
		*sec = -*sec - (*nsec > 0);
		*nsec = *nsec ? NANOS - *nsec : 0;
	}
	return rest;
}

static bool find_action(const char *word, enum action *action)
{
	for (size_t i = 0; i < sizeof(ACTIONS) / sizeof(*ACTIONS); i++) {
		if (ACTIONS[i].word && !strcmp(word, ACTIONS[i].word)) {
			*action = (enum action)i;
			return true;
		}
	}
	return false;
}

static bool parse_ppm(const char *text, double *ppm)
{
	char *end = NULL;

	*ppm = strtod(text, &end);
	return end != text && !*end && *ppm >= -500000 && *ppm <= 1000000;
}

/* Parses the value of an event's action, or NULL if there is none. */
static bool parse_value(const char *text, struct event *event)
{
	const char *rest;

	if (event->action == ACTION_LEAP || !text)
		return event->action == ACTION_LEAP && !text;
	if (event->action == ACTION_FREQ)
		return parse_ppm(text, &event->ppm);
	rest = parse_seconds(text, &event->sec, &event->nsec);
	if (event->action == ACTION_STEP)
		return rest && !*rest;
	return rest && event->sec >= 0 && (!*rest || !strcmp(rest, "s"));
}

/* Parses "NODE NODE". */
static bool parse_pair(const struct options *options, char *text, struct event *event,
		       char *sentence)
{
	const char *one = text ? strsep(&text, " ") : "", *other = text ? text : "";

	event->node = find_node(options, one);
	event->other = find_node(options, other);
	if (!event->node || !event->other)
		snprintf(sentence, SENTENCE_MOST, "there is no node '%.64s'",
			 event->node ? other : one);
	else if (!find_link(options, event->node, event->other))
		snprintf(sentence, SENTENCE_MOST, "there is no link between '%s' and '%s'", one,
			 other);
	return !*sentence;
}

bool event_parse(const struct options *options, char *text, struct event *event, char *sentence)
{
	const char *name = strsep(&text, " "), *word;
	bool is_partition = !strcmp(name, "partition");

	*sentence = 0;
	if (is_partition || !strcmp(name, "heal")) {
		event->action = is_partition ? ACTION_PARTITION : ACTION_HEAL;
		return parse_pair(options, text, event, sentence);
	}
	word = text ? strsep(&text, " ") : "";
	event->node = find_node(options, name);
	if (!event->node)
		snprintf(sentence, SENTENCE_MOST, "there is no node '%.64s'", name);
	else if (!find_action(word, &event->action))
		snprintf(sentence, SENTENCE_MOST, "'%.64s' isn't step, freq, suspend or leap",
			 word);
	else if (!parse_value(text, event))
		strcpy(sentence, ACTIONS[event->action].value);
	else if (event->action == ACTION_FREQ && options->counter != COUNTER_SLEEPS)
		strcpy(sentence, "freq needs --counter sleeps");
	return !*sentence;
}
