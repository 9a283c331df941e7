/* SPDX-License-Identifier: MIT OR Apache-2.0 */
/*
 * coverage.c - finds processes that have no clocks. One that has them has mapped their page, of any
 * node: the library maps it, and so does tkrun with its image.
 */
#define _GNU_SOURCE
#include "coverage.h"

#include "status.h"
#include "uncovered.h"

#include <errno.h>
#include <limits.h>
#include <stdio.h>
#include <stdlib.h>
#include <string.h>
#include <unistd.h>

enum {
	PROGRAMS_MOST = 1024,
	ADDED_MOST = 64,
	STAT_BYTES = 1024,
	CHECKS_LEAST = 2,   /* until a program that has no clocks is named */
	CHECKS_LOADED = 10, /* the same if it has loaded the library */
};

/* A part of the names of all pages, wherever their folder is mounted. */
static char folder_name[NAME_MAX];

static _Atomic pid_t added[ADDED_MOST];
static size_t added_count;

void coverage_start(const char *folder)
{
	snprintf(folder_name, sizeof(folder_name), "%s/", strrchr(folder, '/'));
}

void coverage_remove(pid_t process)
{
	for (size_t i = 0; i < ADDED_MOST; i++) {
		pid_t same = process;

		atomic_compare_exchange_strong(&added[i], &same, 0);
	}
}

static bool has_added(void)
{
	bool is_found = false;

	for (size_t i = 0; i < ADDED_MOST; i++)
		is_found |= added[i] != 0;
	return is_found;
}

static bool is_added(pid_t process)
{
	for (size_t i = 0; i < ADDED_MOST; i++) {
		if (added[i] == process)
			return true;
	}
	return false;
}

/* A program that runs in a process. The start of its stack differs from that of the program that
 * the process ran before, and the start of the process from that of one with the same number. */
struct program {
	int32_t process;
	uint64_t began, stack;
	unsigned int checks;
	bool is_known; /* it has the clocks, or was named */
};

static struct program seen[PROGRAMS_MOST];

/* If tkrun may not know where the stack starts, the next program of a process looks like this
 * one. */
void coverage_add(pid_t process)
{
	for (size_t i = 0; i < PROGRAMS_MOST; i++) {
		if (seen[i].process == process)
			seen[i] = (struct program){ 0 };
	}
	added[added_count++ % ADDED_MOST] = process;
}

/* Returns the number at a place of the file `stat` after the name, where 0 is the state. */
static uint64_t stat_number(const char *text, int place)
{
	const char *at = strrchr(text, ')');

	at = at ? at + 2 : NULL;
	while (at && place--) {
		at = strchr(at, ' ');
		at = at ? at + 1 : NULL;
	}
	return at ? strtoull(at, NULL, 10) : 0;
}

/* Reads which program a process runs. Returns false if it has ended. */
static bool read_program(int32_t process, struct program *program)
{
	char path[64], text[STAT_BYTES];
	const char *name_end;

	snprintf(path, sizeof(path), "/proc/%d/stat", process);
	if (!proc_read(path, text, sizeof(text)))
		return false;
	name_end = strrchr(text, ')');
	if (!name_end || strchr("ZX", name_end[2]))
		return false;
	*program = (struct program){ process, stat_number(text, 19),
				     stat_number(text, 25), 0, false };
	return true;
}

/* Returns the entry of the program that a process runs now, a new one if it
 * wasn't seen yet, or NULL. */
static struct program *find_program(int32_t process)
{
	static size_t next;
	struct program now;

	if (!read_program(process, &now))
		return NULL;
	for (size_t i = 0; i < PROGRAMS_MOST; i++) {
		if (seen[i].process == process && seen[i].began == now.began &&
		    seen[i].stack == now.stack)
			return &seen[i];
	}
	seen[next] = now;
	next = (next + 1) % PROGRAMS_MOST;
	return &seen[(next + PROGRAMS_MOST - 1) % PROGRAMS_MOST];
}

/* What a process has mapped. */
struct mapped {
	bool is_readable; /* by tkrun */
	bool has_file, has_clocks, has_loader, has_library, has_others;
};

static struct mapped read_maps(int32_t process)
{
	struct mapped mapped = { 0 };
	char path[64], line[PATH_MAX + 128];
	FILE *file;

	snprintf(path, sizeof(path), "/proc/%d/maps", process);
	file = fopen(path, "re");
	mapped.is_readable = file || errno != EACCES;
	while (file && fgets(line, sizeof(line), file)) {
		const char *name = strrchr(line, '/');

		mapped.has_file |= name != NULL;
		mapped.has_clocks |= strstr(line, folder_name) != NULL;
		if (name && !strncmp(name, "/ld-", 4))
			mapped.has_loader = true;
		else if (name && !strncmp(name, "/libtkrun.so", 12))
			mapped.has_library = true;
		else if (name && strstr(name, ".so"))
			mapped.has_others = true;
	}
	if (file)
		fclose(file);
	return mapped;
}

/* Returns why a process has no clocks, or NULL if it has them, has ended, or may still load the
 * library. The loader maps the library before all others, and lets it begin after these. */
static const char *find_fault(const struct program *program, const struct mapped *mapped)
{
	if (!mapped->is_readable)
		return "it may not be looked at, and may be setuid";
	if (mapped->has_clocks || !mapped->has_file)
		return NULL;
	if (mapped->has_library)
		return program->checks < CHECKS_LOADED ? NULL : "its library finds no clocks";
	if (mapped->has_loader && !mapped->has_others)
		return NULL;
	return "it hasn't loaded the library";
}

/* Returns whether a process is below a tkrun inside this one, which checks it. */
static bool is_inside(int32_t process)
{
	char status[STATUS_BYTES];
	bool is_found = false;

	while (!is_found && process > 1 && process != getpid()) {
		is_found = proc_is_tkrun(process);
		process = status_read(process, status)
				  ? (int32_t)status_number(status, "PPid", 10)
				  : 0;
	}
	return is_found;
}

static void check_process(int32_t process)
{
	struct program *program = find_program(process);
	struct mapped mapped;
	const char *fault;

	if (!program || program->is_known || ++program->checks < CHECKS_LEAST)
		return;
	mapped = read_maps(process);
	fault = find_fault(program, &mapped);
	/* a process that was added may still run the program before */
	program->is_known = fault || (!is_added(process) &&
				      (mapped.has_clocks || is_inside(process)));
	if (fault && !is_inside(process))
		uncovered_note_process(process, fault);
}

void coverage_check(struct tree *tree, bool checks_all)
{
	if ((!checks_all && !has_added()) || !tree_scan(tree))
		return;
	for (size_t i = 0; i < tree->process_count; i++) {
		int32_t process = tree->processes[i].process;

		if (checks_all || is_added(process))
			check_process(process);
	}
}
