/* SPDX-License-Identifier: MIT OR Apache-2.0 */
/*
 * Traces a program and its threads. Writes each file that is open after one of their system calls
 * to LIST, once: its name without digits, after "closes", or after "stays" if a program that
 * another thread executes at this moment would get it. The first three files are left out.
 *
 *     opened LIST PROGRAM ARGS..
 */
#define _GNU_SOURCE
#include "tracer.h"

#include <ctype.h>
#include <dirent.h>
#include <fcntl.h>
#include <limits.h>
#include <stdbool.h>
#include <stdio.h>
#include <string.h>

enum {
	NAMES_MOST = 512,
	NAME_BYTES = 256,
};

static char seen[NAMES_MOST][NAME_BYTES];
static FILE *list;

/* Writes a line, unless it was written before. */
static void note(bool closes, const char *name)
{
	char line[NAME_BYTES];
	size_t length = (size_t)snprintf(line, sizeof(line), closes ? "closes " : "stays "), i;

	for (; *name && length < sizeof(line) - 1; name++) {
		if (!isdigit((unsigned char)*name))
			line[length++] = *name;
	}
	line[length] = 0;
	for (i = 0; i < NAMES_MOST && *seen[i]; i++) {
		if (!strcmp(seen[i], line))
			return;
	}
	if (i == NAMES_MOST)
		return;
	strcpy(seen[i], line);
	fprintf(list, "%s\n", line);
}

/* Reads whether a file of a thread is closed when a program is executed. Returns false if another
 * thread closed the file meanwhile. */
static bool read_whether_closed_at_exec(bool *closes, pid_t thread, const char *number)
{
	unsigned int flags;
	char path[64], line[128];
	bool is_read = false;
	FILE *file;

	snprintf(path, sizeof(path), "/proc/%d/fdinfo/%.16s", thread, number);
	file = fopen(path, "re");
	while (file && fgets(line, sizeof(line), file)) {
		if (sscanf(line, "flags: %o", &flags) == 1) {
			*closes = flags & O_CLOEXEC;
			is_read = true;
		}
	}
	if (file)
		fclose(file);
	return is_read;
}

/* Reads the name of an open file. Returns false if it isn't open. */
static bool read_name(char *name, DIR *files, const char *number)
{
	ssize_t length = readlinkat(dirfd(files), number, name, PATH_MAX - 1);

	name[length < 0 ? 0 : length] = 0;
	return length >= 0;
}

/* Notes a file. The other threads run meanwhile: if one of them closes the file, or another file
 * gets its number, it isn't noted. */
static void note_file(pid_t thread, DIR *files, const char *number)
{
	char name[PATH_MAX], again[PATH_MAX];
	bool closes;

	if (read_name(name, files, number) && read_whether_closed_at_exec(&closes, thread, number) &&
	    read_name(again, files, number) && !strcmp(name, again))
		note(closes, name);
}

static void note_files(pid_t thread)
{
	struct dirent *entry;
	char path[64];
	DIR *files;

	snprintf(path, sizeof(path), "/proc/%d/fd", thread);
	files = opendir(path);
	while (files && (entry = readdir(files))) {
		if (atoi(entry->d_name) > STDERR_FILENO)
			note_file(thread, files, entry->d_name);
	}
	if (files)
		closedir(files);
}

int main(int count, char **words)
{
	int result;

	list = count > 2 ? fopen(words[1], "we") : NULL;
	if (!list)
		return EXIT_FAILURE;
	result = trace_program(words + 2, note_files);
	return fclose(list) ? EXIT_FAILURE : result;
}
