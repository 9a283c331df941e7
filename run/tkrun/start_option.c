/* SPDX-License-Identifier: MIT OR Apache-2.0 */
/* start_option.c - parses --start: a time, or a lead over the host's, and a speed. */
#define _GNU_SOURCE
#include "options.h"

#include <stdlib.h>
#include <string.h>

/* The units of a lead, in s. A year has 365 days. */
static const struct {
	char letter;
	double sec;
} UNITS[] = { { 0, 1 }, { 's', 1 }, { 'm', 60 }, { 'h', 3600 }, { 'd', 86400 }, { 'y', 31536000 } };

static const double LEAD_MOST = 1e9; /* s, as that of --ahead */

/* Parses "[+-]NUMBER[UNIT]". */
static void parse_lead(struct options *options, const char *text)
{
	bool is_lead = text[1] >= '0' && text[1] <= '9';
	char *end = NULL;
	double lead = strtod(text, &end);
	size_t unit = 0;

	while (unit < sizeof(UNITS) / sizeof(*UNITS) && UNITS[unit].letter != *end)
		unit++;
	is_lead = is_lead && unit < sizeof(UNITS) / sizeof(*UNITS) && (!*end || !end[1]);
	if (is_lead)
		lead *= UNITS[unit].sec;
	if (!is_lead || !(lead >= -LEAD_MOST && lead <= LEAD_MOST))
		fail(STATUS_WRONG,
		     "--start: '%s' isn't [+-]NUMBER[s|m|h|d|y] up to %.0f s", text, LEAD_MOST);
	options->ahead = lead;
	options->has_lead = true;
}

void parse_start_words(struct options *options, const char *text)
{
	char *time = strdup(text), *speed = time ? strstr(time, " x") : NULL;

	if (!time)
		fail(STATUS_FAILED, "out of memory");
	if (speed && options->name)
		fail(STATUS_WRONG, "--start: a node has no speed");
	if (speed) {
		options->speed = decimal("start", speed + 2, 0.000001, 100000);
		*speed = 0;
	}
	if (*time == '+' || *time == '-')
		parse_lead(options, time);
	else
		parse_start(options, time);
	free(time);
}
