/* SPDX-License-Identifier: MIT OR Apache-2.0 */
/* followed.c - follows the record of one node, and lists what happened. */
#define _GNU_SOURCE
#include "merge.h"

#include "recording.h"
#include "script/script.h"

#include <errno.h>
#include <limits.h>
#include <math.h>
#include <stdlib.h>
#include <string.h>
#include <unistd.h>

/* The clocks of a node after some records. */
struct followed {
	struct merged *merged;
	uint32_t node;
	struct place *place;
	struct plan plan;
	uint64_t mask, cycles; /* since the opening */
	size_t next;	       /* of the place's paces */
};

__attribute__((noreturn)) static void fail_record(const char *path, size_t record,
						  const char *sentence)
{
	if (record)
		fail(STATUS_WRONG, "merge: '%s': record %zu: %s", path, record, sentence);
	fail(STATUS_WRONG, "merge: '%s': %s", path, sentence);
}

/* Returns the cycles of a reading. Between two records the counter has moved by less than half of
 * its range, in either direction. */
static uint64_t cycles_of(const struct followed *followed, uint64_t reading)
{
	uint64_t mask = followed->mask;
	uint64_t moved = (reading - followed->plan.first - followed->cycles) & mask;
	uint64_t cycles = moved > mask / 2 ? followed->cycles - ((mask - moved) + 1)
					   : followed->cycles + moved;

	return (int64_t)cycles < 0 ? 0 : cycles;
}

/* Returns the common counter at some cycles: the first, if there are several. */
static uint64_t common_of(const struct followed *followed, uint64_t cycles)
{
	const struct placed *paces = followed->place->paces;
	size_t i = followed->next ? followed->next - 1 : 0;

	while (i && paces[i].pace.cycles > cycles)
		i--;
	return pace_common(&paces[i].pace, cycles);
}

static struct line *add_line(struct merged *merged)
{
	size_t room = merged->room ? 2 * merged->room : 1024;

	if (merged->count == merged->room) {
		merged->lines = reallocarray(merged->lines, room, sizeof(*merged->lines));
		if (!merged->lines)
			fail(STATUS_FAILED, "out of memory");
		merged->room = room;
	}
	return &merged->lines[merged->count++];
}

/* Adds a line at a place of the common counter, with the clocks as they are now. */
static struct line *note(struct followed *followed, const struct order *order, uint64_t common)
{
	struct merged *merged = followed->merged;
	struct line *line = add_line(merged);
	struct tkc_snapshot snapshot;
	struct tkc_time real;
	uint64_t truth;

	*line = (struct line){ .common = common, .order = *order, .node = followed->node };
	tkc_ntp_snapshot(&snapshot, &followed->plan.clocks);
	line->has_ahead = !tkc_snapshot_get(&real, &snapshot, TKC_CLOCK_REALTIME, order->reading);
	truth = pace_cycles(&merged->places.truth.paces->pace, common);
	if (line->has_ahead)
		line->ahead = real.sec * NANOS + real.nsec - merged->start - (int64_t)truth;
	return line;
}

/* Returns how much faster than its description a node's counter was, in ppm. */
static double error_of(const struct followed *followed, const struct pace *pace)
{
	const struct pace *truth = &followed->merged->places.truth.paces->pace;
	long double rate = ldexpl((long double)pace->scale, -(int)pace->shift) /
			   (long double)followed->plan.hz;
	long double real = ldexpl((long double)truth->scale, -(int)truth->shift) / NANOS;

	return (double)((rate / real - 1) * 1e6L);
}

/* Notes the paces that start up to some cycles. */
static void note_paces(struct followed *followed, uint64_t cycles)
{
	const struct place *place = followed->place;

	while (followed->next < place->count &&
	       place->paces[followed->next].pace.cycles <= cycles) {
		const struct placed *placed = &place->paces[followed->next++];
		struct order order = { .reading = placed->reading, .command = LINE_ERROR };

		note(followed, &order, placed->pace.since)->ppm =
			error_of(followed, &placed->pace);
	}
}

/* Does what a record has done to the clocks, or reads them. Returns the code of the result. In
 * steered clocks, a read lets the seconds up to its reading begin; that of a coarse clock is
 * behind, and lets none. */
static enum tkc_code follow(struct followed *followed, const struct order *order,
			    const struct timex *request)
{
	struct tkc_ntp *clocks = &followed->plan.clocks;
	struct timex asked = request ? *request : (struct timex){ 0 };
	enum tkc_code code = TKC_OK;
	struct tkc_snapshot snapshot;
	struct tkc_time time;
	uint32_t state;

	if (request)
		return tkc_adjtimex((struct tkc_timex *)&asked, &state, clocks, order->reading);
	if (order->command < ROW_READ)
		return tkc_ntp_apply(clocks, order->reading, order->command, order->number,
				     order->nsec);
	if (followed->plan.is_steered)
		code = tkc_ntp_advance(clocks, order->reading);
	(void)code;
	tkc_ntp_snapshot(&snapshot, clocks);
	return tkc_snapshot_get(&time, &snapshot, order->command - ROW_READ, order->reading);
}

static void follow_order(struct followed *followed, const struct order *order,
			 const struct timex *requests)
{
	const struct timex *request =
		order->command == ROW_REQUEST ? &requests[order->number] : NULL;
	struct line *line;
	enum tkc_code code;

	followed->cycles = cycles_of(followed, order->reading);
	note_paces(followed, followed->cycles);
	code = follow(followed, order, request);
	if (order->command == TKC_CMD_UPDATE)
		return;
	line = note(followed, order, common_of(followed, followed->cycles));
	line->request = request;
	line->code = code;
}

/* Places all readings of a node in cycles. Returns the number of its line in RECORD.nodes that
 * isn't where the one before leads, or 0. */
static size_t place_readings(const struct followed *followed)
{
	const struct place *place = followed->place;

	for (size_t i = 0; i < place->count; i++) {
		struct placed *placed = &place->paces[i];

		if (i)
			placed->pace.cycles =
				pace_cycles(&place->paces[i - 1].pace, placed->pace.since);
		if (((followed->plan.first + placed->pace.cycles) & followed->mask) !=
		    placed->reading)
			return i + 1;
	}
	return 0;
}

/* Opens the clocks by the first part of a record. */
static void open_record(struct followed *followed, const struct script *script,
			const char *path)
{
	uint32_t bits, mult, shift;
	size_t wrong;

	if (!plan_open_script(&followed->plan, script))
		fail_record(path, 1, "it isn't the start of a run");
	tkc_counter_numbers(&bits, &mult, &shift, &followed->plan.counter);
	followed->mask = UINT64_MAX >> (64 - bits);
	wrong = place_readings(followed);
	if (wrong)
		fail(STATUS_WRONG,
		     "merge: '%s.nodes': line %zu of the node '%s' isn't of the record '%s'",
		     followed->merged->record, wrong, followed->place->name, path);
	if (!followed->node)
		followed->merged->start =
			followed->plan.open_sec * NANOS + followed->plan.open_nsec;
}

/* Returns whether a later part begins with the clocks as they are now. */
static bool continues(const struct followed *followed, const struct script *script)
{
	uint64_t now[TKC_NTP_SAVED_WORDS];

	tkc_ntp_save(now, &followed->plan.clocks);
	return !memcmp(script->words, now, script->word_count * sizeof(*now));
}

static void follow_part(struct followed *followed, const char *path, bool is_first)
{
	struct script script = { .keeps_reads = true };
	struct fault fault;
	size_t length;
	char *text = script_read(path, &length);

	if (!text)
		fail(STATUS_WRONG, "merge: cannot read '%s': %s", path, strerror(errno));
	if (!script_parse(&script, text, length, &fault))
		fail_record(path, fault.record, fault.text);
	if (is_first)
		open_record(followed, &script, path);
	else if (!continues(followed, &script))
		fail_record(path, 1, "it doesn't continue the part before");
	for (size_t i = 0; i < script.count; i++)
		follow_order(followed, &script.orders[i], script.requests);
	free(script.orders); /* the lines point to the requests */
	free(text);
}

void add_lines(struct merged *merged, uint32_t node)
{
	struct followed followed = { .merged = merged, .node = node,
				     .place = &merged->places.nodes[node] };
	char first[PATH_MAX], path[PATH_MAX];
	struct recording recording = { .path = first };
	unsigned int part = 1;

	snprintf(first, sizeof(first), "%s%s%s", merged->record, node ? "." : "",
		 followed.place->name);
	do {
		recording_part(&recording, part, path, sizeof(path));
		follow_part(&followed, path, part == 1);
		recording_part(&recording, ++part, path, sizeof(path));
	} while (!access(path, F_OK));
	note_paces(&followed, UINT64_MAX);
}
