/* SPDX-License-Identifier: MIT OR Apache-2.0 */
/* give_files.c - gives processes the files of the clocks, by CALL_FILE. */
#define _GNU_SOURCE
#include "static.h"
#include "processes/status.h"

#include <errno.h>
#include <fcntl.h>
#include <limits.h>
#include <stdio.h>
#include <stdlib.h>
#include <sys/ioctl.h>
#include <unistd.h>

static int (*all_files)[CLOCK_FILES]; /* by the node */
static int net_file = -1, turns_file = -1;

void files_offer_net(int file)
{
	net_file = file;
}

void files_offer_turns(int file)
{
	turns_file = file;
}

bool files_open(size_t node, const char *folder)
{
	static const int FLAGS[CLOCK_FILES] = {
		[FILE_PAGE] = O_RDONLY,	  [FILE_PAGE_WRITABLE] = O_RDWR,
		[FILE_CONTROL] = O_RDWR,  [FILE_ROWS] = O_RDWR,
		[FILE_LOG] = O_WRONLY | O_APPEND,
	};
	const struct control *control = node_machine(node)->control;
	char page[PATH_MAX], commands[PATH_MAX];
	const char *paths[CLOCK_FILES] = { page, page, commands,
					   control->rows.path,
					   control->log.path, "", "" };
	int *files;

	if (!all_files)
		all_files = calloc(node_count(), sizeof(*all_files));
	if (!all_files)
		return false;
	files = all_files[node];
	snprintf(page, sizeof(page), "%s/page", folder);
	snprintf(commands, sizeof(commands), "%s/control", folder);
	for (int i = 0; i < CLOCK_FILES; i++) {
		files[i] = *paths[i] ? open(paths[i], FLAGS[i] | O_CLOEXEC) : -1;
		if (*paths[i] && files[i] < 0)
			return false;
	}
	files[FILE_NET] = net_file;
	files[FILE_TURNS] = turns_file;
	return true;
}

bool files_may_command(int thread)
{
	char status[STATUS_BYTES];

	return status_read(thread, status) && status_user(status) == geteuid();
}

int files_give(int listener, const struct seccomp_notif *ask, size_t node, int64_t *value)
{
	struct seccomp_notif_addfd added = { .id = ask->id,
					     .newfd_flags = O_CLOEXEC };
	const int *files = all_files[node];
	uint64_t which = ask->data.args[0];

	if (which >= CLOCK_FILES || files[which] < 0)
		return ENOENT;
	if ((which == FILE_PAGE_WRITABLE || which == FILE_CONTROL) &&
	    !files_may_command((int)ask->pid))
		return EACCES;
	added.srcfd = (uint32_t)files[which];
	*value = ioctl(listener, SECCOMP_IOCTL_NOTIF_ADDFD, &added);
	return *value < 0 ? errno : 0;
}
