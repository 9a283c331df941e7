/* SPDX-License-Identifier: MIT OR Apache-2.0 */
/*
 * turn_blocked: threads that wait for space or bytes, and what ends that: a signal, a cancellation,
 * the time of poll and the like, and a file that is closed. Prints what each call has returned. The
 * host prints the same.
 */
#define _GNU_SOURCE
#include <arpa/inet.h>
#include <errno.h>
#include <fcntl.h>
#include <netinet/in.h>
#include <poll.h>
#include <pthread.h>
#include <signal.h>
#include <stdio.h>
#include <stdlib.h>
#include <string.h>
#include <sys/epoll.h>
#include <sys/select.h>
#include <sys/socket.h>
#include <sys/uio.h>
#include <time.h>
#include <unistd.h>

enum { MORE = 100, BYTES = 16 << 20, WAIT_MILLIS = 40 };

static int ends[2]; /* the reader's, and the writer's */
static char *bytes;
static ssize_t result;
static int error;
static volatile int handled;

static void check(int holds, const char *what)
{
	if (!holds) {
		printf("wrong: %s, %s\n", what, strerror(errno));
		exit(1);
	}
}

static void nap(void)
{
	static const struct timespec SPAN = { 0, 20000000 };

	nanosleep(&SPAN, NULL);
}

static void open_tcp(void)
{
	struct sockaddr_in name = { .sin_family = AF_INET, .sin_addr.s_addr = htonl(0x7f000001) };
	int listener = socket(AF_INET, SOCK_STREAM, 0);
	socklen_t size = sizeof(name);

	check(!bind(listener, (struct sockaddr *)&name, size) && !listen(listener, 1) &&
		      !getsockname(listener, (struct sockaddr *)&name, &size),
	      "listen");
	ends[1] = socket(AF_INET, SOCK_STREAM, 0);
	check(!connect(ends[1], (struct sockaddr *)&name, size), "connect");
	ends[0] = accept(listener, NULL, NULL);
	close(listener);
}

static void open_ends(const char *kind)
{
	if (!strcmp(kind, "pipe"))
		check(!pipe(ends), "pipe");
	else if (!strcmp(kind, "unix"))
		check(!socketpair(AF_UNIX, SOCK_STREAM, 0, ends), "socketpair");
	else
		open_tcp();
}

static void close_ends(void)
{
	close(ends[0]);
	close(ends[1]);
}

/* Writes until there is no space for more. On the host, a while passes until TCP has none. */
static void fill(void)
{
	int flags = fcntl(ends[1], F_GETFL);

	fcntl(ends[1], F_SETFL, flags | O_NONBLOCK);
	for (int i = 0; i < 3; i++) {
		while (write(ends[1], bytes, 4096) > 0 || write(ends[1], bytes, 1) > 0)
			;
		check(errno == EAGAIN, "full");
		nap();
	}
	fcntl(ends[1], F_SETFL, flags);
}

static void handle(int number)
{
	handled = number;
}

static void handle_by(int flags)
{
	struct sigaction action = { .sa_handler = handle, .sa_flags = flags };

	sigaction(SIGUSR1, &action, NULL);
	handled = 0;
}

/* What the other thread does. */
static void *write_few(void *unused)
{
	result = write(ends[1], bytes, MORE);
	error = errno;
	return unused;
}

static void *write_many(void *unused)
{
	result = write(ends[1], bytes, BYTES);
	error = errno;
	return unused;
}

static void *read_few(void *unused)
{
	result = read(ends[0], bytes, MORE);
	error = errno;
	return unused;
}

static void *poll_full(void *unused)
{
	struct pollfd file = { ends[1], POLLOUT, 0 };

	result = poll(&file, 1, -1);
	error = errno;
	return unused;
}

static pthread_t begin(void *(*function)(void *))
{
	pthread_t thread;

	result = -7;
	error = 0;
	pthread_create(&thread, NULL, function, NULL);
	nap();
	return thread;
}

static void end(pthread_t thread, const char *what)
{
	void *value;

	pthread_join(thread, &value);
	if (value == PTHREAD_CANCELED)
		printf("%s: cancelled\n", what);
	else if (result < 0)
		printf("%s: %s, handled %d\n", what, strerrorname_np(error), !!handled);
	else
		printf("%s: %s, handled %d\n", what,
		       result == BYTES ? "all" : result > MORE ? "a part" : result ? "few" : "none",
		       !!handled);
}

static void signal_it(pthread_t thread)
{
	pthread_kill(thread, SIGUSR1);
	nap();
}

static void drain(void)
{
	static char more[65536];

	fcntl(ends[0], F_SETFL, O_NONBLOCK);
	for (int i = 0; i < 3; i++) {
		while (read(ends[0], more, sizeof(more)) > 0)
			;
		nap();
	}
}

static void show_signals(void)
{
	pthread_t thread;

	fill();
	handle_by(0);
	thread = begin(write_few);
	signal_it(thread);
	end(thread, "a write without space, interrupted");
	handle_by(SA_RESTART);
	thread = begin(write_few);
	signal_it(thread);
	drain();
	end(thread, "a write that goes on");
	handle_by(0);
	fcntl(ends[0], F_SETFL, 0);
	thread = begin(write_many);
	signal_it(thread);
	end(thread, "a write that has begun, interrupted");
	thread = begin(poll_full);
	signal_it(thread);
	end(thread, "a poll, interrupted");
	thread = begin(write_few);
	pthread_cancel(thread);
	end(thread, "a write");
	drain();
	fcntl(ends[0], F_SETFL, 0);
	handle_by(0);
	thread = begin(read_few);
	signal_it(thread);
	end(thread, "a read, interrupted");
	handle_by(SA_RESTART);
	thread = begin(read_few);
	signal_it(thread);
	check(write(ends[1], bytes, 10) == 10, "write");
	end(thread, "a read that goes on");
	thread = begin(read_few);
	pthread_cancel(thread);
	end(thread, "a read");
}

static long millis(void)
{
	struct timespec now;

	clock_gettime(CLOCK_MONOTONIC, &now);
	return now.tv_sec * 1000 + now.tv_nsec / 1000000;
}

/* Prints what a call has found in its time, and whether that has passed. */
static void show_time(const char *what, int found, long before)
{
	printf("%s: %d, %s\n", what, found, millis() - before < WAIT_MILLIS ? "early" : "in time");
}

static void show_times(void)
{
	struct pollfd file = { ends[1], POLLOUT, 0 };
	struct timeval span = { 0, WAIT_MILLIS * 1000 };
	struct timespec exact = { 0, WAIT_MILLIS * 1000000 };
	struct epoll_event event = { .events = EPOLLOUT };
	int epoll = epoll_create1(0);
	long before;
	fd_set out;

	epoll_ctl(epoll, EPOLL_CTL_ADD, ends[1], &event);
	fill();
	before = millis();
	show_time("poll", poll(&file, 1, WAIT_MILLIS), before);
	before = millis();
	show_time("ppoll", ppoll(&file, 1, &exact, NULL), before);
	FD_ZERO(&out);
	FD_SET(ends[1], &out);
	before = millis();
	show_time("select", select(ends[1] + 1, NULL, &out, NULL, &span), before);
	printf("set: %d\n", !!FD_ISSET(ends[1], &out));
	FD_SET(ends[1], &out);
	before = millis();
	show_time("pselect", pselect(ends[1] + 1, NULL, &out, NULL, &exact, NULL), before);
	before = millis();
	show_time("epoll_wait", epoll_wait(epoll, &event, 1, WAIT_MILLIS), before);
	before = millis();
	show_time("epoll_pwait2", epoll_pwait2(epoll, &event, 1, &exact, NULL), before);
	show_time("poll at once", poll(&file, 1, 0), millis() - WAIT_MILLIS);
	close(epoll);
}

/* The reader goes while the writer waits. */
static void show_closed(void)
{
	pthread_t thread;

	fill();
	handle_by(0);
	thread = begin(write_few);
	close(ends[0]);
	end(thread, "a write after the end");
	errno = 0;
	result = write(ends[1], bytes, 1);
	printf("the next one: %zd %s\n", result, strerrorname_np(errno));
	ends[0] = -1;
}

int main(void)
{
	static const char *const KINDS[] = { "pipe", "unix", "tcp" };
	void (*const shows[])(void) = { show_signals, show_times, show_closed };

	bytes = calloc(1, BYTES);
	signal(SIGPIPE, SIG_IGN);
	for (int i = 0; i < 9; i++) {
		printf("%s\n", KINDS[i / 3]);
		open_ends(KINDS[i / 3]);
		shows[i % 3]();
		close_ends();
	}
	return 0;
}
