/* SPDX-License-Identifier: MIT OR Apache-2.0 */
/* ctl.c - tkrun ctl NODE COMMAND [VALUE], or partition|heal NODE NODE: lets an event happen now. */
#define _GNU_SOURCE
#include "tkrun.h"

#include <errno.h>
#include <glob.h>
#include <stdio.h>
#include <stdlib.h>
#include <string.h>
#include <sys/socket.h>
#include <unistd.h>

bool control_address(struct sockaddr_un *address, const char *folder)
{
	*address = (struct sockaddr_un){ .sun_family = AF_UNIX };
	errno = ENAMETOOLONG;
	return snprintf(address->sun_path, sizeof(address->sun_path), "%s/ctl", folder) <
	       (int)sizeof(address->sun_path);
}

/* Connects to the run with a folder. Returns -1 if there is none. */
static int connect_to(const char *folder)
{
	int file = socket(AF_UNIX, SOCK_SEQPACKET | SOCK_CLOEXEC, 0);
	struct sockaddr_un address;

	if (file >= 0 && control_address(&address, folder) &&
	    !connect(file, (struct sockaddr *)&address, sizeof(address)))
		return file;
	close(file);
	return -1;
}

/* Connects to the only run of these folders whose clocks this user may command. */
static int connect_to_any(const char *pattern)
{
	int file = -1, other;
	glob_t found;

	if (glob(pattern, GLOB_ONLYDIR, NULL, &found))
		return -1;
	for (size_t i = 0; i < found.gl_pathc; i++) {
		other = connect_to(found.gl_pathv[i]);
		if (file >= 0 && other >= 0)
			fail(STATUS_WRONG,
			     "ctl: there are several runs: set TKRUN to the folder of one, such as '%s'",
			     found.gl_pathv[i]);
		file = other >= 0 ? other : file;
	}
	globfree(&found);
	return file;
}

static int connect_to_run(void)
{
	const char *folder = find_run(), *temporary = getenv("TMPDIR");
	char pattern[PATH_MAX];
	int file;

	if (folder)
		return connect_to(folder);
	file = connect_to_any("/dev/shm/tkrun.??????");
	snprintf(pattern, sizeof(pattern), "%s/tkrun.??????", temporary ? temporary : "/tmp");
	return file >= 0 ? file : connect_to_any(pattern);
}

/* Joins the words of an event. Returns its length, or 0 if it is too long. */
static size_t join_words(int count, char **words, char *text)
{
	size_t length = 0;

	for (int i = 0; i < count; i++) {
		if (length + strlen(words[i]) + 1 > EVENT_MOST)
			return 0;
		length += (size_t)sprintf(text + length, "%s%s", i ? " " : "", words[i]);
	}
	return length;
}

void control_node(int count, char **words)
{
	char text[EVENT_MOST + 1], sentence[SENTENCE_MOST] = "";
	size_t length;
	int file;

	if (count < 2 || strcmp(words[1], "ctl"))
		return;
	length = join_words(count - 2, words + 2, text);
	if (count < 4 || !length)
		fail(STATUS_WRONG, "tkrun ctl NODE step|freq|suspend|leap [VALUE], or "
				   "tkrun ctl partition|heal NODE NODE");
	file = connect_to_run();
	if (file < 0)
		fail(STATUS_WRONG, "ctl: there is no run with --node");
	if (send(file, text, length, MSG_NOSIGNAL) < 0 ||
	    recv(file, sentence, sizeof(sentence) - 1, 0) <= 0)
		fail(STATUS_FAILED, "ctl: the run has ended");
	if (*sentence)
		fail(STATUS_WRONG, "ctl: %s", sentence);
	exit(0);
}
