/* SPDX-License-Identifier: MIT OR Apache-2.0 */
/* summary.c - prints what became of a run. */
#define _GNU_SOURCE
#include "tkrun.h"
#include "processes/uncovered.h"

#include <inttypes.h>
#include <stdio.h>
#include <string.h>

/* Warns of waits that the clocks have no part in. */
static void print_host_waits(uint32_t waits)
{
	static const char *const WAITS[HOST_WAITS] = {
		[HOST_UNLISTED] =
			"some waits moved no counter: more than 32768 at once",
		[HOST_SEMAPHORES] =
			"semtimedop with IPC_NOWAIT waited by the host's time",
		[HOST_SOCKET] =
			"SO_RCVTIMEO or SO_SNDTIMEO waits by the host's time",
		[HOST_MESSAGES] = "recvmmsg waited by the host's time",
		[HOST_FUTEX] =
			"FUTEX_WAIT_REQUEUE_PI waited by the host's time",
		[HOST_ASYNCHRONOUS] =
			"io_uring or io_getevents waits by the host's time",
		[HOST_FILES] =
			"newer files have wrong times: the clocks moved too often",
		[HOST_VDSO] =
			"a program that another one traces may have read the host's clocks by its vDSO",
	};

	for (int i = 0; i < HOST_WAITS; i++) {
		if (waits & 1U << i)
			fprintf(stderr, "tkrun: %s\n", WAITS[i]);
	}
}

static void print_node(const struct node *node)
{
	const struct control *control = node->machine.control;

	fprintf(stderr,
		"commands: %" PRIu64 " accepted, %" PRIu64
		" refused; at least %" PRIu64 " reads; programs: %" PRIu32
		" attached\n",
		control->accepted, control->refused, control->reads,
		control->attached);
	if (control->recovered)
		fprintf(stderr,
			"tkrun: %stook over %" PRIu64
			" times from a process that died amid a command\n",
			node_prefix(node), control->recovered);
}

void print_summary(const struct run *run)
{
	uint64_t nanos = host_nanos(CLOCK_MONOTONIC) - run->started;

	fprintf(stderr, "tkrun: %.3f s of the host; ", (double)nanos / 1e9);
	print_node(run->nodes);
	for (size_t i = 1; i < run->count; i++) {
		fprintf(stderr, "tkrun: %s", node_prefix(&run->nodes[i]));
		print_node(&run->nodes[i]);
	}
}

void print_faults(const struct run *run)
{
	uint32_t waits = 0;

	for (size_t i = 0; i < run->count; i++)
		waits |= run->nodes[i].machine.control->host_waits;
	uncovered_print_rest();
	print_host_waits(waits);
}

void print_log(const struct node *node)
{
	const struct log *log = &node->machine.control->log;
	const char *name = node_prefix(node);

	if (!log->lost)
		return;
	fprintf(stderr,
		"tkrun: %sthe log ends before line %" PRIu64 ": %s\n"
		"tkrun: %s%" PRIu64 " %s in the log\n",
		name, log->written + 1, strerror(log->error), name, log->lost,
		log->lost == 1 ? "line isn't" : "lines aren't");
}

void print_record(const struct node *node, bool is_written)
{
	const struct recording *recording = &node->recording;
	const struct rows *rows = &node->machine.control->rows;
	const char *name = node_prefix(node);

	if (!node->options.is_quiet && is_written)
		fprintf(stderr,
			"tkrun: %srecorded %" PRIu64 " reads and %" PRIu64
			" commands, in %u %s\n",
			name, recording->reads, recording->commands,
			recording->part_count,
			recording->part_count == 1 ? "script" : "scripts");
	if (rows->reads > rows->reads_most)
		fprintf(stderr,
			"tkrun: %sthe record has the first %" PRIu64
			" reads, and not the %" PRIu64
			" after them: --reads changes that\n",
			name, rows->reads_most, rows->reads - rows->reads_most);
	if (recording->error)
		fprintf(stderr,
			"tkrun: %sthe record ends before row %" PRIu64 ": %s\n",
			name, recording->missing, strerror(recording->error));
	if (recording->gap)
		fprintf(stderr,
			"tkrun: %sthe record ends before command %" PRIu64
			", which couldn't be recorded\n",
			name, recording->gap);
	if (rows->lost)
		fprintf(stderr,
			"tkrun: %s%" PRIu64
			" reads or commands aren't in the record\n",
			name, rows->lost);
}
