/* SPDX-License-Identifier: MIT OR Apache-2.0 */
/*
 * Sets a timer of an hour, and ends by its last thread, which is not the main
 * thread. Prints "bye" when the process exits.
 */
#define _GNU_SOURCE
#include <pthread.h>
#include <stdio.h>
#include <stdlib.h>
#include <sys/timerfd.h>
#include <unistd.h>

static void say_bye(void)
{
	puts("bye");
}

static void *sleep_on(void *unused)
{
	sleep(1);
	return unused;
}

int main(void)
{
	struct itimerspec spec = { .it_value = { 3600, 0 } };
	int file = timerfd_create(CLOCK_MONOTONIC, 0);
	pthread_t thread;

	atexit(say_bye);
	if (timerfd_settime(file, 0, &spec, NULL) ||
	    pthread_create(&thread, NULL, sleep_on, NULL))
		return 1;
	pthread_exit(NULL);
}
