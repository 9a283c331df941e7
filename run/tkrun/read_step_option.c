/* SPDX-License-Identifier: MIT OR Apache-2.0 */
/* read_step_option.c - parses --step-after-reads N:[+-]SEC[.NSEC]. */
#include "events.h"

#include <errno.h>
#include <stdlib.h>

/* Parses a step. Returns false if the text is none. */
static bool parse_step(const char *text, struct read_step *step)
{
	char *end = NULL;
	const char *rest;

	errno = 0;
	step->reads = strtoull(text, &end, 10);
	if (*text < '0' || *text > '9' || errno || !step->reads || step->reads > INT64_MAX ||
	    *end != ':')
		return false;
	rest = parse_seconds(end + 1, &step->sec, &step->nsec);
	return rest && !*rest;
}

/* Steps after the same read come in the order of their options. */
void parse_read_step(struct options *options, const char *text)
{
	uint32_t at = options->read_step_count;
	struct read_step step;

	if (!parse_step(text, &step))
		fail(STATUS_WRONG,
		     "--step-after-reads: '%s' isn't N:[+-]SEC[.NSEC], with a number N of reads", text);
	if (at == READ_STEPS_MOST)
		fail(STATUS_WRONG, "--step-after-reads: there are more than %d", READ_STEPS_MOST);
	options->read_step_count++;
	while (at && options->read_steps[at - 1].reads > step.reads) {
		options->read_steps[at] = options->read_steps[at - 1];
		at--;
	}
	options->read_steps[at] = step;
}
