/* SPDX-License-Identifier: MIT OR Apache-2.0 */
/*
 * control.c - answers `tkrun ctl`. A client connects to a socket in the folder of the clocks, sends
 * one event, and gets a sentence that says what is wrong, or an empty one.
 */
#define _GNU_SOURCE
#include "tkrun.h"

#include <errno.h>
#include <stdio.h>
#include <string.h>
#include <sys/socket.h>
#include <sys/stat.h>
#include <unistd.h>

static int listener = -1, client = -1;

void control_open(const struct run *run)
{
	struct sockaddr_un address;

	listener = socket(AF_UNIX, SOCK_SEQPACKET | SOCK_CLOEXEC | SOCK_NONBLOCK, 0);
	if (listener < 0 || !control_address(&address, run->nodes->folder) ||
	    bind(listener, (struct sockaddr *)&address, sizeof(address)) ||
	    chmod(address.sun_path, 0600) || listen(listener, SOMAXCONN))
		fail(STATUS_FAILED, "cannot make the socket of 'tkrun ctl': %s", strerror(errno));
}

/* Stores what is wrong with an event that was asked for, or an empty sentence. */
static void answer(struct run *run, char *text, char *sentence)
{
	struct event event = { .nanos = true_nanos(run) };
	enum tkc_code code;

	if (!event_parse(&run->nodes->options, text, &event, sentence))
		return;
	code = act(run, &event);
	if (code)
		snprintf(sentence, SENTENCE_MOST, "%sthe clocks refuse it: %s",
			 node_prefix(&run->nodes[event.node]), tkc_code_name(code));
}

/* A client outside of the run may not have sent its event yet: then it is asked again. */
bool control_serve(struct run *run)
{
	char text[EVENT_MOST + 1], sentence[SENTENCE_MOST];
	ssize_t length;

	if (client < 0)
		client = accept4(listener, NULL, NULL, SOCK_CLOEXEC | SOCK_NONBLOCK);
	if (client < 0)
		return false;
	length = recv(client, text, EVENT_MOST, 0);
	if (length < 0 && errno == EAGAIN)
		return false;
	if (length > 0) {
		text[length] = 0;
		answer(run, text, sentence);
		send(client, sentence, strlen(sentence) + 1, MSG_NOSIGNAL);
	}
	close(client);
	client = -1;
	return true;
}
