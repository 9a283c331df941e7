/* SPDX-License-Identifier: MIT OR Apache-2.0 */
/* merge.c - tkrun merge RECORD: prints what happened on all nodes of a run, in one order. */
#define _GNU_SOURCE
#include "merge.h"

#include "texts.h"
#include "clocks/requests.h"

#include <errno.h>
#include <inttypes.h>
#include <stdio.h>
#include <stdlib.h>
#include <string.h>

/* Orders lines by the common counter, and then as add_lines has listed them. */
static int compare_lines(const void *first, const void *second)
{
	const struct line *a = *(const struct line *const *)first;
	const struct line *b = *(const struct line *const *)second;

	if (a->common != b->common)
		return a->common < b->common ? -1 : 1;
	return a < b ? -1 : a > b;
}

static const struct line **sort_lines(const struct merged *merged)
{
	const struct line **sorted = calloc(merged->count + 1, sizeof(*sorted));

	if (!sorted)
		fail(STATUS_FAILED, "out of memory");
	for (size_t i = 0; i < merged->count; i++)
		sorted[i] = &merged->lines[i];
	qsort(sorted, merged->count, sizeof(*sorted), compare_lines);
	return sorted;
}

/* Prints ns as seconds. */
static void print_seconds(uint64_t nanos)
{
	printf("%" PRIu64 ".%09" PRIu64, nanos / NANOS, nanos % NANOS);
}

/* Prints a read, a command or a request as the record contains it. */
static void print_order(const struct line *line)
{
	const struct order *order = &line->order;
	struct asked_words asked;
	struct tkc_time value = { .sec = order->number, .nsec = order->nsec };

	if (order->command == LINE_ERROR) {
		printf("error-ppm,%" PRIu64 ",%+.6f", order->reading, line->ppm);
	} else if (line->request) {
		asked = request_words(line->request);
		text_request(stdout, order->reading, &asked);
	} else if (order->command >= ROW_READ) {
		text_read(stdout, order->reading, order->command - ROW_READ,
			  line->code ? NULL : &value);
	} else {
		text_command(stdout, order->reading, order->command, order->number, order->nsec);
	}
}

static void print_line(const struct merged *merged, const struct line *line)
{
	const struct places *places = &merged->places;
	uint64_t size = line->ahead < 0 ? -(uint64_t)line->ahead : (uint64_t)line->ahead;

	print_seconds(pace_cycles(&places->truth.paces->pace, line->common));
	printf(",%s,", places->nodes[line->node].name);
	if (line->has_ahead) {
		putchar(line->ahead < 0 ? '-' : '+');
		print_seconds(size);
	}
	printf(",%s,", line->code ? text_refusal(line->code) : "ok");
	print_order(line);
	putchar('\n');
}

static void print_lines(const struct merged *merged)
{
	const struct line **sorted = sort_lines(merged);

	for (size_t i = 0; i < merged->count; i++)
		print_line(merged, sorted[i]);
	free(sorted);
	if (fflush(stdout) || ferror(stdout))
		fail(STATUS_FAILED, "merge: cannot write: %s", strerror(errno));
}

void merge_records(int count, char **words)
{
	static struct merged merged;

	if (count < 2 || strcmp(words[1], "merge"))
		return;
	if (count != 3)
		fail(STATUS_WRONG, "tkrun merge RECORD");
	merged.record = words[2];
	places_read(&merged.places, merged.record);
	for (uint32_t i = 0; i < merged.places.count; i++)
		add_lines(&merged, i);
	print_lines(&merged);
	exit(0);
}
