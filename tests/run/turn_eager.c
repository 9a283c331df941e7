/* SPDX-License-Identifier: MIT OR Apache-2.0 */
/*
 * turn_eager HOW FILE: one thread or process takes something from the kernel, and another one waits for
 * that. Prints what the first one finds by its next call. On the host it may find less or more.
 */
#define _GNU_SOURCE
#include <errno.h>
#include <fcntl.h>
#include <pthread.h>
#include <stdio.h>
#include <stdlib.h>
#include <string.h>
#include <sys/file.h>
#include <sys/ioctl.h>
#include <sys/ipc.h>
#include <sys/msg.h>
#include <sys/socket.h>
#include <sys/uio.h>
#include <sys/wait.h>
#include <time.h>
#include <unistd.h>

#include "turn_naps.h"

enum { ROUNDS = 8, BYTES = 300000, PART = 10000, MESSAGES = 20 };

static int ends[2], queue;
static const char *lock_name;
static char bytes[BYTES];

/* Writes more than there is space for, by each call. */
static void *write_all(void *socket)
{
	struct iovec part = { bytes, BYTES };
	struct msghdr message = { .msg_iov = &part, .msg_iovlen = 1 };

	check(write(ends[1], bytes, BYTES) == BYTES, "write");
	check(writev(ends[1], &part, 1) == BYTES, "writev");
	check(!socket || send(ends[1], bytes, BYTES, 0) == BYTES, "send");
	check(!socket || sendmsg(ends[1], &message, 0) == BYTES, "sendmsg");
	close(ends[1]);
	return NULL;
}

/* Prints what each read has found, or what is left then: the writer goes on when it has the turn. */
static void show_reads(int is_socket, int is_rest)
{
	pthread_t writer;
	ssize_t size;
	int rest, least = 1;

	check(!(is_socket ? socketpair(AF_UNIX, SOCK_STREAM, 0, ends) : pipe(ends)), "ends");
	if (is_rest) /* a part doesn't fit */
		check(!setsockopt(ends[1], SOL_SOCKET, SO_SNDBUF, &least, sizeof(least)), "SO_SNDBUF");
	pthread_create(&writer, NULL, write_all, is_socket ? &writer : NULL);
	while ((size = read(ends[0], bytes, PART)) > 0) {
		check(!ioctl(ends[0], FIONREAD, &rest), "FIONREAD");
		printf("%zd ", is_rest ? rest : size);
	}
	pthread_join(writer, NULL);
}

struct message {
	long type;
	char text[4096];
};

static void *send_all(void *unused)
{
	struct message message = { 1, "" };

	for (int i = 0; i < MESSAGES; i++)
		check(!msgsnd(queue, &message, sizeof(message.text), 0), "msgsnd");
	return unused;
}

static unsigned long count_messages(void)
{
	struct msqid_ds status;

	check(!msgctl(queue, IPC_STAT, &status), "msgctl");
	return status.msg_qnum;
}

/* After a message is taken, the one that has waited for its space is there. */
static void show_messages(void)
{
	struct message message;
	unsigned long before;
	pthread_t sender;

	queue = msgget(IPC_PRIVATE, 0600);
	pthread_create(&sender, NULL, send_all, NULL);
	nap();
	before = count_messages();
	for (int i = 0; i < MESSAGES; i++) {
		check(msgrcv(queue, &message, sizeof(message.text), 0, 0) > 0, "msgrcv");
		if (!i)
			printf("%s ", count_messages() == before ? "full" : "not full");
	}
	pthread_join(sender, NULL);
	msgctl(queue, IPC_RMID, NULL);
}

enum lock_kind { BY_FLOCK, OF_FILE, OF_PROCESS, LOCK_KINDS };

/* Changes the lock of a file. Returns whether it could. */
static int lock_by(enum lock_kind kind, int file, int type, int waits)
{
	struct flock all = { .l_type = (short)type };

	if (kind == BY_FLOCK)
		return !flock(file, (type == F_UNLCK ? LOCK_UN : LOCK_EX) | (waits ? 0 : LOCK_NB));
	if (kind == OF_FILE)
		return !fcntl(file, waits ? F_OFD_SETLKW : F_OFD_SETLK, &all);
	return !fcntl(file, waits ? F_SETLKW : F_SETLK, &all);
}

static void wait_for_lock(enum lock_kind kind)
{
	int file = open(lock_name, O_RDWR);

	check(lock_by(kind, file, F_WRLCK, 1), "lock");
	nap();
	_exit(0);
}

/* Whoever waits for a lock gets it, and not the process that has unlocked it, also by closing the
 * file, and tries again. */
static void show_lock(enum lock_kind kind, int by_close)
{
	int file = open(lock_name, O_RDWR | O_CREAT | O_CLOEXEC, 0600), other = -1;
	pid_t waiter = fork();

	if (!waiter) {
		close(file);
		nap();
		wait_for_lock(kind);
	}
	other = by_close ? open(lock_name, O_RDWR) : dup(file);
	check(lock_by(kind, file, F_WRLCK, 1), "lock");
	nap();
	nap();
	if (by_close)
		close(file);
	else
		check(lock_by(kind, file, F_UNLCK, 0), "unlock");
	printf("%s ", lock_by(kind, other, F_WRLCK, 0) ? "free" : "taken");
	close(other);
	if (!by_close)
		close(file);
	waitpid(waiter, NULL, 0);
}

static void *receive(void *text)
{
	check(recv(ends[0], text, 1, 0) == 1, "recv");
	return NULL;
}

/* The one that waits for longer gets the first datagram. */
static void show_receivers(void)
{
	pthread_t threads[2];
	char got[2] = "";

	check(!socketpair(AF_UNIX, SOCK_DGRAM, 0, ends), "socketpair");
	for (int i = 0; i < 2; i++) {
		pthread_create(&threads[i], NULL, receive, &got[i]);
		nap();
	}
	check(send(ends[1], "a", 1, 0) == 1 && send(ends[1], "b", 1, 0) == 1, "send");
	for (int i = 0; i < 2; i++)
		pthread_join(threads[i], NULL);
	printf("%c%c ", got[0], got[1]);
	close(ends[0]);
	close(ends[1]);
}

int main(int count, char **words)
{
	const char *how = count > 1 ? words[1] : "";

	lock_name = count > 2 ? words[2] : "";
	if (!strcmp(how, "pipe") || !strcmp(how, "socket") || !strcmp(how, "rest"))
		show_reads(*how != 'p', *how == 'r');
	else if (!strcmp(how, "messages"))
		show_messages();
	for (int i = 0; i < 2 * LOCK_KINDS && !strcmp(how, "locks"); i++)
		show_lock((enum lock_kind)(i / 2), i & 1);
	for (int i = 0; i < ROUNDS && !strcmp(how, "receivers"); i++)
		show_receivers();
	puts(how);
	return 0;
}
