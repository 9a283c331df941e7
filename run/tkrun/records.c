/* SPDX-License-Identifier: MIT OR Apache-2.0 */
/* records.c - starts and ends the records of the nodes. */
#define _GNU_SOURCE
#include "tkrun.h"
#include "record/readers.h"

#include <errno.h>
#include <inttypes.h>
#include <stdio.h>
#include <stdlib.h>
#include <string.h>
#include <unistd.h>

/* Starts the record of a node. */
static void start_record(struct node *node)
{
	const char *temporary = getenv("TMPDIR");
	char *path = NULL;

	node->recording.path = node->options.record;
	if (!node->options.record) {
		snprintf(node->scratch, sizeof(node->scratch), "%s/tkrun.XXXXXX",
			 temporary ? temporary : "/tmp");
		if (!mkdtemp(node->scratch))
			fail(STATUS_FAILED, "--check: cannot make '%s': %s",
			     node->scratch, strerror(errno));
		if (asprintf(&path, "%s/record", node->scratch) < 0)
			fail(STATUS_FAILED, "out of memory");
		node->recording.path = path;
	}
	recording_start(&node->recording, node->machine.control, &node->options);
	if (node->plan.is_steered)
		rows_steer(&node->machine.control->rows);
}

void start_records(struct run *run)
{
	for (size_t i = 0; i < run->count; i++)
		start_record(&run->nodes[i]);
	if (run->count > 1 && run->nodes->options.record)
		start_paces(run);
}

static bool is_complete(const struct node *node)
{
	return !node->recording.error && !node->recording.gap &&
	       !node->machine.control->rows.lost;
}

/* Compares a node's record, if it was written. Returns 0, or the status that this makes: a value
 * differs, or else not all values could be compared. */
static int check_record(const struct node *node, bool is_written)
{
	const struct recording *recording = &node->recording;
	uint64_t differ = is_written ? recording_check(recording) : 0;
	uint64_t all = recording->reads + recording->commands;
	const char *name = node_prefix(node);

	if (signals_passed() || differ == NOT_RUN)
		return STATUS_UNCHECKED;
	if (differ) {
		fprintf(stderr,
			"tkrun: %scheck: %" PRIu64
			" lines differ from tkcore's\n",
			name, differ);
		return STATUS_DIFFERS;
	}
	if (recording->has_readers && is_written && readers_check(recording)) {
		fprintf(stderr, "tkrun: %scheck: the readers don't fit the record\n", name);
		return STATUS_DIFFERS;
	}
	if (!is_written) {
		fprintf(stderr, "tkrun: %scheck: there is no record\n", name);
		return STATUS_UNCHECKED;
	}
	if (!is_complete(node)) {
		fprintf(stderr,
			"tkrun: %scheck: tkcore gives each of the first %" PRIu64
			" values; the others aren't in the record\n",
			name, all);
		return STATUS_UNCHECKED;
	}
	if (!node->options.is_quiet)
		fprintf(stderr,
			"tkrun: %scheck: tkcore gives each of the %" PRIu64
			" values\n",
			name, all);
	return 0;
}

/* Removes the parts of a record that only --check needed. */
static void remove_scratch(const struct node *node)
{
	char name[PATH_MAX];

	if (!*node->scratch)
		return;
	for (unsigned int part = 1; part <= node->recording.part_count; part++) {
		recording_part(&node->recording, part, name, sizeof(name));
		unlink(name);
	}
}

/* Ends the record of a node. Returns 0, or the status that this makes. */
static int end_record(struct node *node)
{
	bool is_written = recording_write(&node->recording, &node->machine,
					  &node->plan);
	int status = 0;

	print_record(node, is_written);
	if (node->options.is_checked && !signals_passed())
		status = check_record(node, is_written);
	remove_scratch(node);
	return status;
}

void end_records(struct run *run)
{
	int status, worst = 0;

	end_paces();
	for (size_t i = 0; i < run->count; i++) {
		status = end_record(&run->nodes[i]);
		if (status && worst != STATUS_DIFFERS)
			worst = status;
	}
	if (signals_passed()) {
		fprintf(stderr, "tkrun: check: ended by a signal: %s\n",
			strsignal(signals_passed()));
		worst = 128 + signals_passed();
	}
	if (worst)
		run->status = worst;
}
