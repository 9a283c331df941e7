/* SPDX-License-Identifier: MIT OR Apache-2.0 */
/* status.c - reads what /proc says of a thread. */
#define _GNU_SOURCE
#include "status.h"

#include "clocks/machine.h"

#include <fcntl.h>
#include <signal.h>
#include <stdio.h>
#include <stdlib.h>
#include <string.h>
#include <sys/stat.h>
#include <unistd.h>

bool proc_read(const char *path, char *text, size_t size)
{
	int file = open(path, O_RDONLY | O_CLOEXEC);
	ssize_t length;

	if (file < 0)
		return false;
	length = read(file, text, size - 1);
	close(file);
	text[length < 0 ? 0 : length] = 0;
	return length > 0;
}

uint64_t proc_ticks(int process)
{
	char path[64], text[1024];
	uint64_t user = 0, system = 0;
	const char *name_end;

	snprintf(path, sizeof(path), "/proc/%d/stat", process);
	name_end = proc_read(path, text, sizeof(text)) ? strrchr(text, ')') : NULL;
	if (name_end)
		sscanf(name_end, ") %*c %*d %*d %*d %*d %*d %*u %*u %*u %*u %*u %lu %lu", &user,
		       &system);
	return user + system;
}

char *proc_read_list(const char *path)
{
	FILE *file = fopen(path, "re");
	char *text = NULL;
	size_t size = 0;

	if (!file)
		return NULL;
	if (getdelim(&text, &size, 0, file) <= 0) {
		free(text);
		text = NULL;
	}
	fclose(file);
	return text;
}

bool is_tkrun_file(const char *path)
{
	struct stat own, other;

	return !stat("/proc/self/exe", &own) && !stat(path, &other) &&
	       own.st_ino == other.st_ino && own.st_dev == other.st_dev;
}

bool proc_is_tkrun(int process)
{
	char path[64];

	snprintf(path, sizeof(path), "/proc/%d/exe", process);
	return is_tkrun_file(path);
}

bool status_read(int thread, char text[STATUS_BYTES])
{
	char path[64];

	snprintf(path, sizeof(path), "/proc/%d/status", thread);
	return proc_read(path, text, STATUS_BYTES);
}

/* Returns what follows "NAME:\t" at the beginning of a line, or NULL. */
static const char *value_of(const char *status, const char *name)
{
	size_t length = strlen(name);
	const char *line = status;

	while (line && (strncmp(line, name, length) || line[length] != ':')) {
		line = strchr(line, '\n');
		line = line ? line + 1 : NULL;
	}
	return line ? line + length + 2 : NULL;
}

uint64_t status_number(const char *status, const char *name, int base)
{
	const char *value = value_of(status, name);

	return value ? strtoull(value, NULL, base) : 0;
}

uid_t status_user(const char *status)
{
	const char *value = value_of(status, "Uid");
	uid_t user = (uid_t)-1;

	if (value)
		sscanf(value, "%*u %u", &user);
	return user;
}

char status_state(const char *status)
{
	const char *value = value_of(status, "State");

	return value ? *value : 0;
}

bool status_handles_wake(const char *status)
{
	return status_number(status, "SigCgt", 16) >> (WAKE_SIGNAL - 1) & 1;
}

static inline uint64_t bit(int number)
{
	return UINT64_C(1) << (number - 1);
}

enum interruption status_interruption(const char *status, bool is_alone)
{
	/* without a handler these end no call: signal(7) */
	const uint64_t stops = bit(SIGSTOP) | bit(SIGTSTP) | bit(SIGTTIN) |
			       bit(SIGTTOU) | bit(SIGCONT) | bit(SIGCHLD) |
			       bit(SIGURG) | bit(SIGWINCH);
	uint64_t pending = status_number(status, "SigPnd", 16);

	if (is_alone)
		pending |= status_number(status, "ShdPnd", 16);
	pending &= ~status_number(status, "SigBlk", 16) &
		   ~status_number(status, "SigIgn", 16);
	if (!pending)
		return NOT_INTERRUPTED;
	if (pending & ~stops || pending & status_number(status, "SigCgt", 16))
		return INTERRUPTED;
	return STOPPED;
}
