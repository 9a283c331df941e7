/* SPDX-License-Identifier: MIT OR Apache-2.0 */
/*
 * Sets REALTIME while timers of MONOTONIC run, and prints what is wrong: an
 * expiry must neither come twice nor be lost.
 */
#define _GNU_SOURCE
#include <errno.h>
#include <signal.h>
#include <stdint.h>
#include <stdio.h>
#include <sys/timerfd.h>
#include <time.h>
#include <unistd.h>

static const struct timespec PERIOD = { 0, 50000000 }, WAIT = { 0, 300000000 };

static volatile sig_atomic_t signals;

static void count_signal(int number)
{
	(void)number;
	signals++;
}

static int start_file(struct timespec period)
{
	struct itimerspec spec = { period, PERIOD };
	int file = timerfd_create(CLOCK_MONOTONIC, TFD_NONBLOCK);

	if (timerfd_settime(file, 0, &spec, NULL))
		perror("timerfd_settime");
	return file;
}

static void start_signal(void)
{
	struct sigaction action = { .sa_handler = count_signal };
	struct sigevent event = { .sigev_notify = SIGEV_SIGNAL,
				  .sigev_signo = SIGUSR1 };
	struct itimerspec spec = { .it_value = PERIOD };
	timer_t timer;

	sigaction(SIGUSR1, &action, NULL);
	if (timer_create(CLOCK_MONOTONIC, &event, &timer) ||
	    timer_settime(timer, 0, &spec, NULL))
		perror("timer_settime");
}

/* Waits, whatever signals come. */
static void wait_all(void)
{
	struct timespec rest = WAIT;

	while (nanosleep(&rest, &rest) && errno == EINTR)
		;
}

static uint64_t read_count(int file)
{
	uint64_t count = 0;

	return read(file, &count, sizeof(count)) < 0 ? 0 : count;
}

int main(void)
{
	int once = start_file((struct timespec){ 0, 0 });
	int often = start_file(PERIOD);
	struct timespec time = { 1000000000, 0 };

	start_signal();
	wait_all();
	if (read_count(once) != 1 || signals != 1)
		puts("a timer has not expired once");
	clock_settime(CLOCK_REALTIME, &time);
	wait_all();
	if (read_count(once) || signals != 1)
		puts("a timer has expired again after a step");
	if (read_count(often) < 11)
		puts("a step lost expiries that were not read");
	clock_settime(CLOCK_REALTIME, &time);
	wait_all();
	if (read_count(often) < 4)
		puts("a timer with a period has ended");
	return 0;
}
