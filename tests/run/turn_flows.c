/* SPDX-License-Identifier: MIT OR Apache-2.0 */
/*
 * turn_flows LOG SCHEDULE KIND [ADDRESS PORT]: one thread writes to a pipe or connection, and
 * another one reads. They append to LOG what each call has returned, what is left to read, and what
 * poll answers.
 *
 * KIND is pipe, unix or tcp, with both threads in this process, or reads or writes: then this
 * process listens at ADDRESS and reads, or connects to it and writes.
 */
#define _GNU_SOURCE
#include <arpa/inet.h>
#include <errno.h>
#include <fcntl.h>
#include <netinet/in.h>
#include <poll.h>
#include <pthread.h>
#include <signal.h>
#include <stdarg.h>
#include <stdio.h>
#include <stdlib.h>
#include <string.h>
#include <sys/epoll.h>
#include <sys/ioctl.h>
#include <sys/select.h>
#include <sys/socket.h>
#include <sys/uio.h>
#include <time.h>
#include <unistd.h>

enum { TOTAL = 700000, PIECE_MOST = 200000, REPLY = 1000 };
enum end { END_CLOSE, END_SHUTDOWN };
enum wait { WAIT_NONE, WAIT_POLL, WAIT_SELECT, WAIT_LEVEL, WAIT_EDGE };

/* How the two behave: bytes of a call, and after how many calls they sleep, if they do. */
static const struct schedule {
	const char *name;
	int write_bytes, write_naps, read_bytes, read_naps, read_most;
	enum end end;
	enum wait wait; /* of a writer that doesn't block */
} SCHEDULES[] = {
	{ "slow_reader", 150000, 0, 7000, 3, TOTAL, END_CLOSE, WAIT_NONE },
	{ "slow_writer", 3000, 5, 20000, 0, TOTAL, END_CLOSE, WAIT_NONE },
	{ "both_slow", 40000, 2, 30000, 3, TOTAL, END_SHUTDOWN, WAIT_NONE },
	{ "close_amid", 200000, 0, 9000, 2, 300000, END_CLOSE, WAIT_NONE },
	{ "shutdown_half", 65536, 0, 65536, 0, TOTAL, END_SHUTDOWN, WAIT_NONE },
	{ "poll", 50000, 0, 11000, 4, TOTAL, END_CLOSE, WAIT_POLL },
	{ "select", 50000, 0, 11000, 4, TOTAL, END_SHUTDOWN, WAIT_SELECT },
	{ "level", 50000, 0, 11000, 4, TOTAL, END_CLOSE, WAIT_LEVEL },
	{ "edge", 50000, 0, 11000, 4, TOTAL, END_SHUTDOWN, WAIT_EDGE },
	{ "both_at_once", 10000, 0, 10000, 0, TOTAL, END_CLOSE, WAIT_NONE },
};

static const struct schedule *schedule;
static int ends[2], log_file; /* the reader's, and the writer's */

static void note(const char *format, ...)
{
	struct timespec now;
	char line[200];
	va_list list;
	int size;

	clock_gettime(CLOCK_MONOTONIC, &now);
	size = sprintf(line, "%ld.%09ld ", (long)now.tv_sec, now.tv_nsec);
	va_start(list, format);
	size += vsnprintf(line + size, sizeof(line) - 1 - (size_t)size, format, list);
	va_end(list);
	line[size++] = '\n';
	if (write(log_file, line, (size_t)size) != size)
		exit(2);
}

static void check(int holds, const char *what)
{
	if (!holds) {
		note("wrong: %s, %s", what, strerror(errno));
		exit(1);
	}
}

static char byte_at(size_t place)
{
	return (char)(place % 251 + place / 65521);
}

static int events_of(int file, short wanted)
{
	struct pollfd now = { file, wanted, 0 };

	check(poll(&now, 1, 0) >= 0, "poll");
	return now.revents;
}

static void nap(int calls, int every)
{
	static const struct timespec SPAN = { 0, 1000000 };

	if (every && calls % every == every - 1)
		nanosleep(&SPAN, NULL);
}

/* Waits until the kernel or tkrun says that the file is writable. Returns the answer. */
static int wait_writable(int file, int epoll)
{
	struct pollfd polled = { file, POLLOUT | POLLIN, 0 };
	struct epoll_event event = { 0 };
	fd_set in, out;
	int count;

	FD_ZERO(&in);
	FD_ZERO(&out);
	FD_SET(file, &in);
	FD_SET(file, &out);
	if (schedule->wait == WAIT_POLL)
		return poll(&polled, 1, -1) * 1000 + polled.revents;
	if (schedule->wait == WAIT_SELECT) {
		count = select(file + 1, &in, &out, NULL, NULL);
		return count * 1000 + !!FD_ISSET(file, &in) * 10 + !!FD_ISSET(file, &out);
	}
	return epoll_wait(epoll, &event, 1, -1) * 1000 + (int)event.events;
}

static int begin_epoll(int file)
{
	struct epoll_event event = { .events = EPOLLOUT | EPOLLIN };
	int epoll = epoll_create1(0);

	event.events |= schedule->wait == WAIT_EDGE ? EPOLLET : 0;
	check(!epoll_ctl(epoll, EPOLL_CTL_ADD, file, &event), "epoll_ctl");
	return epoll;
}

/* Writes by another call each time. */
static ssize_t write_by(int call, int file, char *bytes, size_t size)
{
	struct iovec parts[3] = { { bytes, size / 3 }, { bytes + size / 3, 0 },
				  { bytes + size / 3, size - size / 3 } };
	struct msghdr message = { .msg_iov = parts, .msg_iovlen = 3 };
	int is_socket = fcntl(file, F_GETPIPE_SZ) < 0;

	errno = 0;
	if (call % 4 == 1)
		return writev(file, parts, 3);
	if (call % 4 == 2 && is_socket)
		return send(file, bytes, size, MSG_NOSIGNAL);
	if (call % 4 == 3 && is_socket)
		return sendmsg(file, &message, MSG_NOSIGNAL);
	return write(file, bytes, size);
}

static void *write_all(void *unused)
{
	static char bytes[PIECE_MOST];
	int file = ends[1], calls = 0, epoll = -1;
	size_t done = 0;

	if (schedule->wait) {
		check(!fcntl(file, F_SETFL, O_NONBLOCK), "O_NONBLOCK");
		epoll = schedule->wait >= WAIT_LEVEL ? begin_epoll(file) : -1;
	}
	while (done < TOTAL) {
		size_t size = (size_t)schedule->write_bytes;
		ssize_t written;

		size = size < TOTAL - done ? size : TOTAL - done;
		for (size_t i = 0; i < size; i++)
			bytes[i] = byte_at(done + i);
		errno = 0;
		written = write_by(calls, file, bytes, size);
		note("write %zd %d, events %x", written, errno, events_of(file, POLLOUT));
		if (written < 0 && errno == EAGAIN)
			note("writable %d", wait_writable(file, epoll));
		else if (written < 0)
			break;
		done += written > 0 ? (size_t)written : 0;
		nap(calls++, schedule->write_naps);
	}
	if (schedule->end != END_SHUTDOWN || shutdown(file, SHUT_WR))
		close(file);
	close(epoll);
	return unused;
}

/* Returns how many bytes are left to read, or minus an error. */
static int left_of(int file)
{
	int left = -1;

	return ioctl(file, FIONREAD, &left) ? -errno : left;
}

/* Reads by another call each time. */
static ssize_t read_by(int call, int file, char *bytes, size_t size)
{
	struct iovec parts[2] = { { bytes, size / 3 }, { bytes + size / 3, size - size / 3 } };
	struct msghdr message = { .msg_iov = parts, .msg_iovlen = 2 };
	int is_socket = fcntl(file, F_GETPIPE_SZ) < 0;

	errno = 0;
	if (call % 5 == 1)
		return readv(file, parts, 2);
	if (call % 5 == 2 && is_socket)
		return recv(file, bytes, size, 0);
	if (call % 5 == 3 && is_socket)
		return recvmsg(file, &message, 0);
	if (call % 5 == 4 && is_socket)
		return recvfrom(file, bytes, size, 0, NULL, NULL);
	return read(file, bytes, size);
}

static void *read_all(void *unused)
{
	static char bytes[PIECE_MOST];
	int file = ends[0], calls = 0;
	size_t done = 0, most = (size_t)schedule->read_most;
	ssize_t size = 1;

	while (size > 0 && (done < most || most == TOTAL)) {
		errno = 0;
		size = read_by(calls, file, bytes, (size_t)schedule->read_bytes);
		note("read %zd %d, left %d, events %x", size, errno, left_of(file),
		     events_of(file, POLLIN | POLLOUT | POLLRDHUP));
		for (ssize_t i = 0; i < size; i++)
			check(bytes[i] == byte_at(done + (size_t)i), "bytes");
		done += size > 0 ? (size_t)size : 0;
		nap(calls++, schedule->read_naps);
	}
	note("read %zu in all", done);
	check(done == TOTAL || most < TOTAL, "total");
	return unused;
}

/* After the writer's end of its half, the other half goes on. */
static void *reply(void *unused)
{
	char bytes[REPLY] = "";

	for (int i = 0; i < REPLY; i += REPLY / 10) {
		note("reply %zd", write(ends[0], bytes + i, REPLY / 10));
		nap(i, 1);
	}
	close(ends[0]);
	return unused;
}

static void get_reply(void)
{
	char bytes[REPLY];

	fcntl(ends[1], F_SETFL, 0);
	note("got %zd", recv(ends[1], bytes, sizeof(bytes), MSG_WAITALL));
	note("then %zd", read(ends[1], bytes, 1));
}

static struct sockaddr_in name_of(char **words)
{
	return (struct sockaddr_in){ .sin_family = AF_INET,
				     .sin_addr.s_addr = inet_addr(words[0]),
				     .sin_port = htons((uint16_t)atoi(words[1])) };
}

/* Makes the listening socket of a connection to oneself, or to another process. */
static int listen_at(struct sockaddr_in *name)
{
	int listener = socket(AF_INET, SOCK_STREAM, 0), one = 1;
	socklen_t size = sizeof(*name);

	setsockopt(listener, SOL_SOCKET, SO_REUSEADDR, &one, sizeof(one));
	check(!bind(listener, (struct sockaddr *)name, size) && !listen(listener, 4) &&
		      !getsockname(listener, (struct sockaddr *)name, &size),
	      "listen");
	return listener;
}

static void connect_to(const struct sockaddr_in *name)
{
	ends[1] = socket(AF_INET, SOCK_STREAM, 0);
	check(!connect(ends[1], (const struct sockaddr *)name, sizeof(*name)), "connect");
}

static void open_ends(const char *kind)
{
	struct sockaddr_in name = { .sin_family = AF_INET, .sin_addr.s_addr = htonl(0x7f000001) };
	int listener;

	if (!strcmp(kind, "pipe")) {
		check(!pipe(ends), "pipe");
	} else if (!strcmp(kind, "unix")) {
		check(!socketpair(AF_UNIX, SOCK_STREAM, 0, ends), "socketpair");
	} else {
		listener = listen_at(&name);
		connect_to(&name);
		ends[0] = accept(listener, NULL, NULL);
		close(listener);
	}
}

static void run_both(const char *kind)
{
	pthread_t threads[2];

	open_ends(kind);
	pthread_create(&threads[0], NULL, read_all, NULL);
	pthread_create(&threads[1], NULL, write_all, NULL);
	pthread_join(threads[0], NULL);
	if (schedule->end != END_SHUTDOWN || *kind == 'p')
		close(ends[0]);
	pthread_join(threads[1], NULL);
	if (schedule->end != END_SHUTDOWN || *kind == 'p')
		return;
	pthread_create(&threads[0], NULL, reply, NULL);
	get_reply();
	pthread_join(threads[0], NULL);
}

static void run_apart(const char *kind, char **words)
{
	struct sockaddr_in name = name_of(words);
	int reads = !strcmp(kind, "reads");

	if (reads) {
		ends[0] = accept(listen_at(&name), NULL, NULL);
		read_all(NULL);
	} else {
		connect_to(&name);
		write_all(NULL);
	}
	if (schedule->end == END_SHUTDOWN && reads)
		reply(NULL);
	else if (schedule->end == END_SHUTDOWN)
		get_reply();
	else
		close(ends[reads ? 0 : 1]);
}

int main(int count, char **words)
{
	if (count < 4)
		return 2;
	log_file = open(words[1], O_WRONLY | O_APPEND | O_CREAT, 0600);
	for (size_t i = 0; i < sizeof(SCHEDULES) / sizeof(*SCHEDULES); i++) {
		if (!strcmp(SCHEDULES[i].name, words[2]))
			schedule = &SCHEDULES[i];
	}
	signal(SIGPIPE, SIG_IGN);
	if (!schedule)
		return 2;
	if (count == 4)
		run_both(words[3]);
	else
		run_apart(words[3], words + 4);
	return 0;
}
