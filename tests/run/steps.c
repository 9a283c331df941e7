/* SPDX-License-Identifier: MIT OR Apache-2.0 */
/*
 * Waits in four threads while REALTIME, which is 1000 at first, is stepped to
 * 1101 after a second. Prints at which MONOTONIC each wait ended: two waits
 * until 1050, and two spans of two seconds.
 */
#define _GNU_SOURCE
#include <pthread.h>
#include <stdint.h>
#include <stdio.h>
#include <sys/timerfd.h>
#include <time.h>
#include <unistd.h>

enum { THREADS = 4 };

static const struct timespec WALL = { 1050, 0 }, SPAN = { 2, 0 };

static void absolute_sleep(void)
{
	clock_nanosleep(CLOCK_REALTIME, TIMER_ABSTIME, &WALL, NULL);
}

static void wait_file(int flags, struct timespec time)
{
	struct itimerspec spec = { .it_value = time };
	int file = timerfd_create(CLOCK_REALTIME, 0);
	uint64_t count;

	timerfd_settime(file, flags, &spec, NULL);
	if (read(file, &count, sizeof(count)) != sizeof(count))
		perror("read");
}

static void absolute_timerfd(void)
{
	wait_file(TFD_TIMER_ABSTIME, WALL);
}

static void span(void)
{
	clock_nanosleep(CLOCK_REALTIME, 0, &SPAN, NULL);
}

static void timer_span(void)
{
	wait_file(0, SPAN);
}

static struct wait {
	const char *name;
	void (*wait)(void);
	struct timespec end;
	pthread_t thread;
} waits[THREADS] = {
	{ .name = "absolute_sleep", .wait = absolute_sleep },
	{ .name = "absolute_timerfd", .wait = absolute_timerfd },
	{ .name = "span", .wait = span },
	{ .name = "timer_span", .wait = timer_span },
};

static void *run(void *argument)
{
	struct wait *wait = argument;

	wait->wait();
	clock_gettime(CLOCK_MONOTONIC, &wait->end);
	return NULL;
}

int main(void)
{
	for (int i = 0; i < THREADS; i++)
		pthread_create(&waits[i].thread, NULL, run, &waits[i]);
	for (int i = 0; i < THREADS; i++) {
		pthread_join(waits[i].thread, NULL);
		printf("%s %lld.%09ld\n", waits[i].name,
		       (long long)waits[i].end.tv_sec, waits[i].end.tv_nsec);
	}
	return 0;
}
