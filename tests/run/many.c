/* SPDX-License-Identifier: MIT OR Apache-2.0 */
/*
 * Waits for more times than a table of fixed size would have.
 *
 *     many timers|threads|processes
 *
 * Each of COUNT timers, threads or processes waits for its time: a millisecond later
 * than the time of the GROUP before. Prints the number of those that ended, and of
 * those that ended before their time. Of processes it prints also how many ended after
 * their time.
 */
#define _GNU_SOURCE
#include <pthread.h>
#include <signal.h>
#include <stdatomic.h>
#include <stdbool.h>
#include <stdint.h>
#include <stdio.h>
#include <string.h>
#include <sys/mman.h>
#include <sys/wait.h>
#include <time.h>
#include <unistd.h>

enum { COUNT = 1500, GROUP = 150, STACK_BYTES = 65536, BEGIN_SEC = 10 };

/* What the processes count together. */
static struct {
	atomic_int ended, early, late;
} *counts;

/* A wait ends when the clock is past its time, by a cycle of 1 ns. */
static bool is_late(const struct timespec *now, const struct timespec *due)
{
	return (now->tv_sec - due->tv_sec) * INT64_C(1000000000) +
		       now->tv_nsec - due->tv_nsec >
	       1;
}

static struct timespec time_of(int number)
{
	return (struct timespec){ BEGIN_SEC, number / GROUP * 1000000L };
}

static void note_end(int number)
{
	struct timespec now, due = time_of(number);

	clock_gettime(CLOCK_MONOTONIC, &now);
	counts->ended++;
	counts->early += now.tv_sec < due.tv_sec ||
			 (now.tv_sec == due.tv_sec && now.tv_nsec < due.tv_nsec);
	counts->late += is_late(&now, &due);
}

static bool set_timer(int number)
{
	struct sigevent event = { .sigev_notify = SIGEV_SIGNAL,
				  .sigev_signo = SIGRTMIN,
				  .sigev_value.sival_int = number };
	struct itimerspec spec = { .it_value = time_of(number) };
	timer_t timer;

	return !timer_create(CLOCK_MONOTONIC, &event, &timer) &&
	       !timer_settime(timer, TIMER_ABSTIME, &spec, NULL);
}

static bool wait_timers(void)
{
	siginfo_t info;
	sigset_t set;

	sigemptyset(&set);
	sigaddset(&set, SIGRTMIN);
	sigprocmask(SIG_BLOCK, &set, NULL);
	for (int i = 0; i < COUNT; i++) {
		if (!set_timer(i))
			return false;
	}
	for (int i = 0; i < COUNT; i++) {
		if (sigwaitinfo(&set, &info) == SIGRTMIN)
			note_end(info.si_value.sival_int);
	}
	return true;
}

static void *sleep_until(void *number)
{
	struct timespec time = time_of((int)(intptr_t)number);

	clock_nanosleep(CLOCK_MONOTONIC, TIMER_ABSTIME, &time, NULL);
	note_end((int)(intptr_t)number);
	return NULL;
}

static bool wait_threads(void)
{
	static pthread_t threads[COUNT];
	pthread_attr_t attributes;

	pthread_attr_init(&attributes);
	pthread_attr_setstacksize(&attributes, STACK_BYTES);
	for (int i = 0; i < COUNT; i++) {
		if (pthread_create(&threads[i], &attributes, sleep_until,
				   (void *)(intptr_t)i))
			return false;
	}
	for (int i = 0; i < COUNT; i++)
		pthread_join(threads[i], NULL);
	return true;
}

static bool wait_processes(void)
{
	for (int i = 0; i < COUNT; i++) {
		pid_t child = fork();

		if (child < 0)
			return false;
		if (!child) {
			sleep_until((void *)(intptr_t)i);
			_exit(0);
		}
	}
	while (wait(NULL) > 0)
		;
	return true;
}

int main(int count, char **words)
{
	const char *word = count > 1 ? words[1] : "";
	bool is_done;

	counts = mmap(NULL, sizeof(*counts), PROT_READ | PROT_WRITE,
		      MAP_SHARED | MAP_ANONYMOUS, -1, 0);
	is_done = !strcmp(word, "timers")    ? wait_timers()
		  : !strcmp(word, "threads") ? wait_threads()
					     : wait_processes();
	if (!is_done)
		perror("many");
	printf("ended %d, early %d", counts->ended, counts->early);
	if (!strcmp(word, "processes"))
		printf(", late %d", counts->late);
	puts("");
	return 0;
}
