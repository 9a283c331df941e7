/* SPDX-License-Identifier: MIT OR Apache-2.0 */
/*
 * Sends two messages by TCP and waits for an answer to both, again and again, while another
 * thread sleeps for a millisecond at a time, and prints by how many ns the clocks moved on.
 *
 *     exchanges
 *     exchanges settings    prints what a program sees of TCP_NODELAY, also on the host
 */
#define _GNU_SOURCE
#include "spans.h"

#include <netinet/in.h>
#include <netinet/tcp.h>
#include <pthread.h>
#include <sys/socket.h>

enum { COUNT = 20 };

static int listener;
static struct sockaddr_in address = { .sin_family = AF_INET };

static void listen_here(void)
{
	socklen_t length = sizeof(address);

	address.sin_addr.s_addr = htonl(INADDR_LOOPBACK);
	listener = socket(AF_INET, SOCK_STREAM, 0);
	if (bind(listener, (struct sockaddr *)&address, length) ||
	    listen(listener, 4) ||
	    getsockname(listener, (struct sockaddr *)&address, &length))
		perror("exchanges");
}

static int connect_here(void)
{
	int file = socket(AF_INET, SOCK_STREAM, 0);

	if (connect(file, (struct sockaddr *)&address, sizeof(address)))
		perror("exchanges");
	return file;
}

static void *answer(void *unused)
{
	int file = accept(listener, NULL, NULL);
	char bytes[2];

	while (recv(file, bytes, 2, MSG_WAITALL) == 2)
		send(file, "!", 1, 0);
	close(file);
	return unused;
}

static void *tick(void *unused)
{
	struct timespec span = { 0, MILLION };

	for (;;)
		nanosleep(&span, NULL);
	return unused;
}

/* Returns by how many ns the clocks moved on during an exchange. */
static int64_t exchange(int file)
{
	int64_t before = nanos(now(CLOCK_MONOTONIC));
	char byte;

	send(file, "a", 1, 0);
	send(file, "b", 1, 0);
	if (recv(file, &byte, 1, 0) != 1)
		perror("exchanges");
	return nanos(now(CLOCK_MONOTONIC)) - before;
}

static void print_exchanges(void)
{
	struct timespec span = { 0, 10 * MILLION };
	pthread_t answerer, ticker;
	int64_t took = 0;
	int file;

	pthread_create(&answerer, NULL, answer, NULL);
	file = connect_here();
	pthread_create(&ticker, NULL, tick, NULL);
	for (int i = 0; i < COUNT; i++) {
		took += exchange(file);
		nanosleep(&span, NULL);
	}
	printf("exchanges %d, took %lld\n", COUNT, (long long)took);
}

static void print_setting(const char *name, int file)
{
	int value = -1;
	socklen_t length = sizeof(value);

	if (getsockopt(file, IPPROTO_TCP, TCP_NODELAY, &value, &length))
		printf("%s %s\n", name, strerrorname_np(errno));
	else
		printf("%s %d, %u bytes\n", name, value, length);
}

static void set(int file, int value, socklen_t length)
{
	int result = setsockopt(file, IPPROTO_TCP, TCP_NODELAY, &value, length);

	printf("set %d %s\n", value, result ? strerrorname_np(errno) : "0");
}

static void print_settings(void)
{
	int file = connect_here(), accepted = accept(listener, NULL, NULL);

	print_setting("new", file);
	print_setting("accepted", accepted);
	set(file, 7, sizeof(int));
	print_setting("on", file);
	set(file, 0, sizeof(int));
	print_setting("off", file);
	set(file, 1, sizeof(int));
	set(file, 0, 2);
	print_setting("still on", file);
	print_setting("the other", accepted);
	set(listener, 1, sizeof(int));
	close(file);
	close(accepted);
	file = connect_here();
	accepted = accept4(listener, NULL, NULL, SOCK_CLOEXEC);
	print_setting("new", file);
	print_setting("accepted", accepted);
	close(accepted);
	errno = 0;
	accepted = socket(AF_INET, SOCK_DGRAM, 0);
	printf("errno %d\n", errno);
	set(accepted, 1, sizeof(int));
	print_setting("datagrams", accepted);
	print_setting("no file", -1);
}

int main(int count, char **words)
{
	(void)words;
	listen_here();
	if (count > 1)
		print_settings();
	else
		print_exchanges();
	return 0;
}
