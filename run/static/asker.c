/* SPDX-License-Identifier: MIT OR Apache-2.0 */
/* asker.c - finds who has made a call, for the log and for the record. */
#define _GNU_SOURCE
#include "asker.h"

#include "clocks/rows.h"
#include "processes/status.h"

#include <stdio.h>
#include <string.h>

int asker_process(const struct seccomp_notif *ask)
{
	char status[STATUS_BYTES];

	if (!status_read((int)ask->pid, status))
		return (int)ask->pid;
	return (int)status_number(status, "Tgid", 10);
}

/* Stores the name of a process, with zeros after it. */
static void store_name(int process, char name[NAME_BYTES])
{
	char path[64], text[NAME_BYTES + 1]; /* a line feed follows the name */
	size_t length = 0;

	snprintf(path, sizeof(path), "/proc/%d/comm", process);
	if (proc_read(path, text, sizeof(text)))
		length = strlen(text) - 1;
	memset(name, 0, NAME_BYTES);
	memcpy(name, text, length);
}

void asker_reads(const struct machine *machine, const struct seccomp_notif *ask)
{
	static _Thread_local struct clock_reader reader;

	if (!machine->control->rows.has_readers)
		return;
	reader.process = asker_process(ask);
	reader.thread = (int)ask->pid;
	store_name(reader.process, reader.program);
	rows_read_for(&reader);
}
