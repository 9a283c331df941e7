/* SPDX-License-Identifier: MIT OR Apache-2.0 */
/*
 * Forks while a handler sets the timer of alarm again and again, and while another thread
 * makes timers. Each child makes a timer too. Prints "ended": neither the process nor a
 * child may wait forever.
 */
#define _GNU_SOURCE
#include <errno.h>
#include <pthread.h>
#include <signal.h>
#include <stdatomic.h>
#include <stdbool.h>
#include <stdio.h>
#include <sys/time.h>
#include <sys/timerfd.h>
#include <sys/wait.h>
#include <unistd.h>

enum { FORKS = 500, SPAN_MICROS = 300 };

static atomic_bool is_over;

static void set_alarm(int number)
{
	struct itimerval spec = { .it_value = { 0, SPAN_MICROS } };

	(void)number;
	setitimer(ITIMER_REAL, &spec, NULL);
}

static void make_timer(void)
{
	close(timerfd_create(CLOCK_MONOTONIC, 0));
}

static void *make_timers(void *unused)
{
	sigset_t all;

	sigfillset(&all);
	pthread_sigmask(SIG_SETMASK, &all, NULL);
	while (!is_over)
		make_timer();
	return unused;
}

static void fork_all(void)
{
	for (int i = 0; i < FORKS; i++) {
		pid_t child = fork();

		if (!child) {
			make_timer();
			_exit(0);
		}
		while (waitpid(child, NULL, 0) < 0 && errno == EINTR)
			;
	}
}

int main(void)
{
	struct sigaction action = { .sa_handler = set_alarm };
	pthread_t thread;

	/* before any timer is set */
	pthread_create(&thread, NULL, make_timers, NULL);
	fork_all();
	is_over = true;
	pthread_join(thread, NULL);
	sigaction(SIGALRM, &action, NULL);
	set_alarm(0);
	fork_all();
	puts("ended");
	return 0;
}
