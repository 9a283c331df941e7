/* SPDX-License-Identifier: MIT OR Apache-2.0 */
/*
 * A process of a node that nodes_killer kills.
 *
 *     nodes_victim loop SEED PEER PORT PROGRAM ARGS..
 *     nodes_victim step DEED PEER PORT PROGRAM ARGS..
 *     nodes_victim serve OWN PORT
 *     nodes_victim nothing
 *
 * The first does deeds in a random order without end: it sleeps, waits, sets its clocks, sends over
 * the link to the address PEER, connects to PORT there, starts threads and processes, and executes
 * PROGRAM, which starts it on a node with `nothing`. It ends with status 1 if a call fails, or a
 * sleep doesn't take its span and 1 ns. (A static program may wake from other waits just before the
 * counter moves, so its sleeps may take longer.) The second is traced by its parent. It does one
 * deed twice, and stops before each: DEED is its number. The third takes connections, one after
 * another.
 */
#define _GNU_SOURCE
#include <arpa/inet.h>
#include <errno.h>
#include <poll.h>
#include <pthread.h>
#include <semaphore.h>
#include <signal.h>
#include <stdbool.h>
#include <stdio.h>
#include <stdlib.h>
#include <string.h>
#include <sys/auxv.h>
#include <sys/ptrace.h>
#include <sys/time.h>
#include <sys/timex.h>
#include <sys/wait.h>
#include <time.h>
#include <unistd.h>

static struct sockaddr_in peer = { .sin_family = AF_INET };
static char **program;

/* Ends the process, and names what has failed. */
static void check(bool is_well, const char *name)
{
	if (is_well)
		return;
	fprintf(stderr, "nodes_victim: %s: %s\n", name, strerror(errno));
	_exit(EXIT_FAILURE);
}

static long long monotonic(void)
{
	struct timespec now;

	check(!clock_gettime(CLOCK_MONOTONIC, &now), "clock_gettime");
	return now.tv_sec * 1000000000LL + now.tv_nsec;
}

/* No time passes while processes compute. */
static void sleep_once(void)
{
	const struct timespec span = { 0, 20000 };
	long long start = monotonic(), slept;

	check(!nanosleep(&span, NULL), "nanosleep");
	slept = monotonic() - start;
	if (slept == span.tv_nsec + 1 || (slept > span.tv_nsec && !getauxval(AT_BASE)))
		return;
	fprintf(stderr, "nodes_victim: a sleep of %ld ns takes %lld\n", span.tv_nsec, slept);
	_exit(EXIT_FAILURE);
}

static void set_clock(void)
{
	const struct timespec time = { 1000000000, 0 };

	for (int i = 0; i < 4; i++)
		check(!clock_settime(CLOCK_REALTIME, &time), "clock_settime");
}

/* A discipline would change the rate of MONOTONIC, so this sets only the offset of TAI. */
static void steer_clock(void)
{
	struct timex timex = { .modes = ADJ_TAI, .constant = 37 };

	check(adjtimex(&timex) >= 0, "adjtimex");
}

static void send_datagrams(void)
{
	int file = socket(AF_INET, SOCK_DGRAM, 0);

	for (int i = 0; i < 2; i++)
		check(sendto(file, &i, sizeof(i), 0, (void *)&peer, sizeof(peer)) == sizeof(i),
		      "sendto");
	close(file);
}

/* The server may have been killed just now. */
static void use_connection(void)
{
	int file = socket(AF_INET, SOCK_STREAM, 0);

	if (!connect(file, (void *)&peer, sizeof(peer)))
		(void)!send(file, &peer, sizeof(peer), MSG_NOSIGNAL);
	else
		check(errno == ECONNREFUSED || errno == ECONNRESET || errno == ECONNABORTED,
		      "connect");
	close(file);
}

static void wait_for_files(void)
{
	struct pollfd none = { -1, 0, 0 };

	check(!poll(&none, 1, 1), "poll");
}

static void wait_for_lock(void)
{
	struct timespec end;
	sem_t none;

	check(!sem_init(&none, 0, 0) && !clock_gettime(CLOCK_REALTIME, &end), "sem_init");
	end.tv_nsec += 1000;
	if (end.tv_nsec < 1000000000)
		sem_timedwait(&none, &end); /* until another process has set REALTIME, too */
}

static void wait_for_timer(void)
{
	const struct itimerspec span = { { 0, 0 }, { 0, 50000 } };
	struct sigevent event = { .sigev_notify = SIGEV_SIGNAL, .sigev_signo = SIGRTMIN };
	sigset_t one;
	timer_t timer;

	sigemptyset(&one);
	sigaddset(&one, SIGRTMIN);
	sigprocmask(SIG_BLOCK, &one, NULL);
	check(!timer_create(CLOCK_MONOTONIC, &event, &timer), "timer_create");
	check(!timer_settime(timer, 0, &span, NULL), "timer_settime");
	check(sigwaitinfo(&one, NULL) == SIGRTMIN, "sigwaitinfo");
	check(!timer_delete(timer), "timer_delete");
}

static void *run_thread(void *unused)
{
	const struct timespec span = { 0, 3000 };

	nanosleep(&span, NULL);
	return unused;
}

static void use_threads(void)
{
	pthread_t threads[3];

	for (int i = 0; i < 3; i++)
		check(!pthread_create(&threads[i], NULL, run_thread, NULL), "pthread_create");
	for (int i = 0; i < 3; i++)
		check(!pthread_join(threads[i], NULL), "pthread_join");
}

/* The child may have been killed. */
static void wait_for(pid_t child)
{
	int status = 1;

	check(child > 0, "fork");
	check(waitpid(child, &status, 0) == child, "waitpid");
	check(!status || WIFSIGNALED(status), "a child has failed");
}

static void use_child(void)
{
	pid_t child = fork();

	if (!child) {
		sleep_once();
		_exit(EXIT_SUCCESS);
	}
	wait_for(child);
}

static void execute(void)
{
	pid_t child = fork();

	if (!child) {
		execv(*program, program);
		_exit(EXIT_FAILURE);
	}
	wait_for(child);
}

static void (*const DEEDS[])(void) = {
	sleep_once,	set_clock,   steer_clock, send_datagrams, use_connection, wait_for_files,
	wait_for_lock, wait_for_timer, use_threads, use_child,	  execute,
};

static void serve(const char *own, const char *port)
{
	struct sockaddr_in name = { .sin_family = AF_INET, .sin_addr.s_addr = inet_addr(own),
				    .sin_port = htons((uint16_t)atoi(port)) };
	int listener = socket(AF_INET, SOCK_STREAM, 0), one = 1, file;
	char bytes[512];

	setsockopt(listener, SOL_SOCKET, SO_REUSEADDR, &one, sizeof(one));
	check(!bind(listener, (void *)&name, sizeof(name)) && !listen(listener, 16), "listen");
	while ((file = accept(listener, NULL, NULL)) >= 0) {
		while (read(file, bytes, sizeof(bytes)) > 0)
			;
		close(file);
	}
	check(false, "accept");
}

int main(int count, char **words)
{
	unsigned int seed = count > 2 ? (unsigned int)atoi(words[2]) : 0;

	if (count == 4)
		serve(words[2], words[3]);
	if (count < 6)
		return EXIT_SUCCESS;
	peer.sin_addr.s_addr = inet_addr(words[3]);
	peer.sin_port = htons((uint16_t)atoi(words[4]));
	program = words + 5;
	while (!strcmp(words[1], "loop"))
		DEEDS[(size_t)rand_r(&seed) % (sizeof(DEEDS) / sizeof(*DEEDS))]();
	check(!ptrace(PTRACE_TRACEME, 0, 0, 0), "ptrace");
	for (int i = 0; i < 2; i++) {
		raise(SIGSTOP);
		DEEDS[seed]();
	}
	raise(SIGSTOP);
	return EXIT_SUCCESS;
}
