/* SPDX-License-Identifier: MIT OR Apache-2.0 */
/*
 * Leaves a wait for a file or a condition variable in another way than by its end, on a
 * counter of sleeps, and waits for 100 s after that. Prints MONOTONIC in s.
 *
 *     wakes jump            a handler jumps out of a poll after 2 s
 *     wakes cancel          threads are cancelled in waits after 2 s
 *     wakes fork            a handler of a poll forks after 2 s, and the child polls too
 *     wakes reset           the program sets all signals to their defaults, and polls
 *     wakes exec PROGRAM..  another thread executes the program during a poll of 20 s
 */
#define _GNU_SOURCE
#include "spans.h"

#include <poll.h>
#include <pthread.h>
#include <setjmp.h>

static sigjmp_buf place;

static void jump(int number)
{
	(void)number;
	siglongjmp(place, 1);
}

static void leave_by_jump(void)
{
	signal(SIGALRM, jump);
	if (!sigsetjmp(place, 1)) {
		alarm(2);
		poll(NULL, 0, 10000);
	}
}

static void *poll_long(void *unused)
{
	poll(NULL, 0, 1000000);
	return unused;
}

static void *wait_long(void *unused)
{
	struct timespec time = after(CLOCK_REALTIME, INT64_C(1000000000000));
	pthread_mutex_t mutex = PTHREAD_MUTEX_INITIALIZER;
	pthread_cond_t cond = PTHREAD_COND_INITIALIZER;

	pthread_mutex_lock(&mutex);
	pthread_cond_timedwait(&cond, &mutex, &time);
	return unused;
}

static void cancel(void)
{
	void *result = NULL;
	pthread_t threads[2];

	pthread_create(&threads[0], NULL, poll_long, NULL);
	pthread_create(&threads[1], NULL, wait_long, NULL);
	sleep(2);
	for (int i = 0; i < 2; i++) {
		if (pthread_cancel(threads[i]) ||
		    pthread_join(threads[i], &result) ||
		    result != PTHREAD_CANCELED)
			puts("not cancelled");
	}
}

static volatile pid_t child = -1;

static void divide(int number)
{
	(void)number;
	child = fork();
}

static void leave_in_child(void)
{
	signal(SIGALRM, divide);
	alarm(2);
	if (poll(NULL, 0, 10000) != -1 || errno != EINTR)
		puts("not interrupted");
	if (!child) {
		if (poll(NULL, 0, 50000))
			puts("wrong");
		fflush(stdout);
		_exit(0);
	}
}

static void reset(void)
{
	struct sigaction action = { .sa_handler = SIG_DFL }, old;

	for (int number = 1; number < 65; number++) {
		signal(number, SIG_DFL);
		sigaction(number, &action, &old);
		if (number == 63 && old.sa_handler != SIG_DFL)
			puts("another handler");
	}
	if (poll(NULL, 0, 2000))
		puts("wrong");
}

static char **program;

static void *execute(void *unused)
{
	sleep(1);
	execvp(*program, program);
	return unused;
}

int main(int count, char **words)
{
	pthread_t thread;

	if (!strcmp(words[1], "jump"))
		leave_by_jump();
	else if (!strcmp(words[1], "cancel"))
		cancel();
	else if (!strcmp(words[1], "fork"))
		leave_in_child();
	else if (!strcmp(words[1], "reset"))
		reset();
	if (count > 2) {
		program = words + 2;
		pthread_create(&thread, NULL, execute, NULL);
		poll(NULL, 0, 20000);
	}
	if (poll(NULL, 0, 100000))
		puts("wrong");
	printf("%lld\n", (long long)now(CLOCK_MONOTONIC).tv_sec);
	while (wait(NULL) > 0)
		;
	return 0;
}
