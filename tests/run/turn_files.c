/* turn_files: a thread waits for files by each call, while another one writes to them by several calls.
 * Prints what each call has found. All that was written must come, in order. */
#define _GNU_SOURCE
#include <errno.h>
#include <poll.h>
#include <pthread.h>
#include <stdio.h>
#include <stdlib.h>
#include <string.h>
#include <sys/epoll.h>
#include <sys/select.h>
#include <sys/socket.h>
#include <time.h>
#include <unistd.h>

enum { ROUNDS = 12, PIECES = 6, FILES = 3 };

static int ends[FILES][2];

static void nap(void)
{
	static const struct timespec SPAN = { 0, 1000000 };

	nanosleep(&SPAN, NULL);
}

/* Writes pieces of two bytes, and two bytes to the other files in between. */
static void *write_pieces(void *unused)
{
	char piece[3] = "00";

	for (int round = 0; round < ROUNDS; round++) {
		nap();
		for (int i = 0; i < PIECES; i++) {
			piece[0] = (char)('a' + round);
			piece[1] = (char)('0' + i);
			if (write(ends[i % FILES][1], piece, 2) != 2)
				exit(1);
		}
	}
	for (int i = 0; i < FILES; i++)
		close(ends[i][1]);
	return unused;
}

static ssize_t read_by(int how, int file, char *bytes, size_t most)
{
	socklen_t length = 0;

	if (how == 1)
		return recv(file, bytes, most, 0);
	if (how == 2)
		return recvfrom(file, bytes, most, 0, NULL, &length);
	return read(file, bytes, most);
}

static void check(int holds, const char *what)
{
	if (!holds)
		printf("wrong: %s\n", what);
}

/* Reads the first file until its end. Datagrams have two bytes each. */
static void read_all(int how, int type)
{
	char bytes[5], all[256] = "", expected[256] = "", *next = expected;
	ssize_t size;

	for (int round = 0; round < ROUNDS; round++)
		for (int i = 0; i < PIECES; i += FILES)
			next += sprintf(next, "%c%d", 'a' + round, i);
	while (strlen(all) < strlen(expected) &&
	       (size = read_by(how, ends[0][0], bytes, 4)) > 0) {
		bytes[size] = 0;
		strcat(all, bytes);
		printf("%zd ", size);
		check(type == SOCK_STREAM || size == 2, "a datagram");
	}
	puts("read");
	check(!strcmp(all, expected), "bytes");
	check(type != SOCK_STREAM || read_by(how, ends[0][0], bytes, 4) == 0, "end");
}

/* Returns the files that are ready, as bits. */
static int ready_by(int how, int epoll)
{
	struct pollfd files[FILES];
	struct epoll_event events[8];
	fd_set in;
	int bits = 0, count, most = 0;

	FD_ZERO(&in);
	for (int i = 0; i < FILES; i++) {
		files[i] = (struct pollfd){ ends[i][0], POLLIN, 0 };
		FD_SET(ends[i][0], &in);
		most = most > ends[i][0] ? most : ends[i][0];
	}
	if (how == 0)
		count = poll(files, FILES, -1);
	else if (how == 1)
		count = ppoll(files, FILES, NULL, NULL);
	else if (how == 2)
		count = select(most + 1, &in, NULL, NULL, NULL);
	else if (how == 3)
		count = pselect(most + 1, &in, NULL, NULL, NULL, NULL);
	else
		count = epoll_wait(epoll, events, 8, -1);
	for (int i = 0; i < FILES && how < 4; i++)
		bits |= (how < 2 ? !!files[i].revents : FD_ISSET(ends[i][0], &in)) << i;
	for (int i = 0; i < count && how >= 4; i++) {
		check(!(bits & 1 << events[i].data.u32) && events[i].events & EPOLLIN, "event");
		bits |= 1 << events[i].data.u32;
	}
	check(count == __builtin_popcount((unsigned)bits), "count");
	return bits;
}

/* Waits until a file is ready and reads all that is there, until all ends have come. */
static void wait_all(int how)
{
	int epoll = epoll_create1(0), total = 0, bits, open = FILES;
	char bytes[64];

	for (int i = 0; i < FILES; i++) {
		struct epoll_event event = { .events = EPOLLIN | (how == 5 ? EPOLLET : 0),
					     .data.u32 = (uint32_t)i };

		epoll_ctl(epoll, EPOLL_CTL_ADD, ends[i][0], &event);
	}
	while (open && total < ROUNDS * PIECES * 2) {
		bits = ready_by(how, epoll);
		printf("%d ", bits);
		for (int i = 0; i < FILES; i++) {
			ssize_t size = bits & 1 << i ? recv(ends[i][0], bytes, sizeof(bytes),
							    MSG_DONTWAIT)
						     : 0;

			total += size > 0 ? (int)size : 0;
			check(!(bits & 1 << i) || size >= 0, "it is ready");
		}
	}
	puts("ready");
	check(total == ROUNDS * PIECES * 2, "total");
	close(epoll);
}

static void run(int how, int type)
{
	pthread_t thread;

	for (int i = 0; i < FILES; i++) {
		if (type ? socketpair(AF_UNIX, type, 0, ends[i]) : pipe(ends[i]))
			exit(1);
	}
	pthread_create(&thread, NULL, write_pieces, NULL);
	if (how < 10)
		read_all(how, type ? type : SOCK_STREAM);
	else
		wait_all(how - 10);
	pthread_join(thread, NULL);
	for (int i = 0; i < FILES; i++)
		close(ends[i][0]);
}

int main(void)
{
	run(0, 0);
	for (int how = 0; how < 3; how++) {
		run(how, SOCK_STREAM);
		run(how, SOCK_DGRAM);
	}
	for (int how = 10; how < 16; how++)
		run(how, SOCK_STREAM);
	return 0;
}
