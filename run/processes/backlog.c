/* SPDX-License-Identifier: MIT OR Apache-2.0 */
/* backlog.c - finds packets of the loopback that the kernel hasn't delivered yet. */
#define _GNU_SOURCE
#include "backlog.h"

#include <fcntl.h>
#include <stdlib.h>
#include <string.h>
#include <unistd.h>

enum { TEXT_BYTES = 65536, COLUMN = 11 }; /* in softnet_seq_show of the kernel's net-procfs.c */

/* Returns the packets that wait on a processor. Before Linux 5.10 they aren't listed. */
static unsigned long waiting(char *line)
{
	char *rest = line, *word = NULL;

	for (int i = 0; i <= COLUMN; i++)
		word = strsep(&rest, " ");
	return word ? strtoul(word, NULL, 16) : 0;
}

bool backlog_is_empty(void)
{
	static int file = -2;
	static char text[TEXT_BYTES];
	char *rest = text, *line;
	ssize_t size;

	if (file == -2)
		file = open("/proc/net/softnet_stat", O_RDONLY | O_CLOEXEC);
	size = file < 0 ? 0 : pread(file, text, sizeof(text) - 1, 0);
	text[size < 0 ? 0 : size] = 0;
	while ((line = strsep(&rest, "\n"))) {
		if (waiting(line))
			return false;
	}
	return true;
}
