/* SPDX-License-Identifier: MIT OR Apache-2.0 */
/* Makes each wait of the C library that libtkrun.so answers for a timer, and sleeps that a signal
 * or a cancellation ends. */
#define _GNU_SOURCE
#include "timed.h"

#include <errno.h>
#include <pthread.h>
#include <signal.h>
#include <stdint.h>
#include <sys/time.h>
#include <sys/timerfd.h>
#include <unistd.h>

static bool by_timerfd(void)
{
	struct itimerspec spec = { .it_value = SPAN }, left;
	int file = timerfd_create(CLOCK_MONOTONIC, 0);
	uint64_t count = 0;

	return !timerfd_settime(file, 0, &spec, NULL) &&
	       !timerfd_gettime(file, &left) &&
	       (left.it_value.tv_sec == 1 || left.it_value.tv_sec == 2) &&
	       read(file, &count, sizeof(count)) == sizeof(count) && count == 1;
}

/* A period of half a second, four times. */
static bool by_timerfd_period(void)
{
	struct itimerspec spec = { { 0, 500000000 }, { 0, 500000000 } };
	int file = timerfd_create(CLOCK_REALTIME, 0);
	uint64_t count, all = 0;

	if (timerfd_settime(file, 0, &spec, NULL))
		return false;
	while (all < 4 && read(file, &count, sizeof(count)) == sizeof(count))
		all += count;
	return all >= 4;
}

static bool by_absolute_timerfd(void)
{
	struct itimerspec spec = { .it_value = until(CLOCK_REALTIME) };
	int file = timerfd_create(CLOCK_REALTIME, 0);
	uint64_t count;

	return !timerfd_settime(file, TFD_TIMER_ABSTIME, &spec, NULL) &&
	       read(file, &count, sizeof(count)) == sizeof(count);
}

static volatile sig_atomic_t is_signalled;

static void note_signal(int number)
{
	(void)number;
	is_signalled = 1;
}

static bool wait_signal(void)
{
	sigset_t none;

	sigemptyset(&none);
	while (!is_signalled)
		sigsuspend(&none);
	return true;
}

/* Lets the signal come only while wait_signal waits for it. */
static void expect(int number)
{
	struct sigaction action = { .sa_handler = note_signal };
	sigset_t set;

	is_signalled = 0;
	sigaction(number, &action, NULL);
	sigemptyset(&set);
	sigaddset(&set, number);
	sigprocmask(SIG_BLOCK, &set, NULL);
}

/* A timer of two seconds has just been set. */
static bool is_two(const struct timespec *left)
{
	return left->tv_sec == 1 || (left->tv_sec == 2 && !left->tv_nsec);
}

static bool by_timer(void)
{
	struct sigevent event = { .sigev_notify = SIGEV_SIGNAL,
				  .sigev_signo = SIGUSR1 };
	struct itimerspec spec = { .it_value = SPAN }, left;
	timer_t timer;

	expect(SIGUSR1);
	return !timer_create(CLOCK_MONOTONIC, &event, &timer) &&
	       !timer_settime(timer, 0, &spec, NULL) &&
	       !timer_gettime(timer, &left) && is_two(&left.it_value) &&
	       wait_signal() && !timer_delete(timer);
}

static bool by_alarm(void)
{
	expect(SIGALRM);
	return !alarm(2) && wait_signal();
}

/* The second call returns what is left of the first one's span, in us. Signals
 * come after 0.4, 1.2 and 2 s. */
static bool by_ualarm(void)
{
	useconds_t left;

	expect(SIGALRM);
	if (ualarm(1000000, 0) != (useconds_t)-1 || ualarm(900000, 0))
		return false;
	left = ualarm(400000, 800000);
	for (int i = 0; i < 3; i++) {
		is_signalled = false;
		if (!wait_signal())
			return false;
	}
	return left > 0 && left <= 900000 && ualarm(0, 0) <= 800000;
}

static bool by_setitimer(void)
{
	struct itimerval spec = { .it_value = { 2, 0 } }, left;

	expect(SIGALRM);
	return !setitimer(ITIMER_REAL, &spec, NULL) &&
	       !getitimer(ITIMER_REAL, &left) &&
	       (left.it_value.tv_sec == 1 || left.it_value.tv_sec == 2) &&
	       wait_signal();
}

/* A signal after two of ten seconds. */
static bool by_interrupted_sleep(void)
{
	struct timespec span = { 10, 0 }, rest = { 0, 0 };
	sigset_t none;

	expect(SIGALRM);
	sigemptyset(&none);
	alarm(2);
	sigprocmask(SIG_SETMASK, &none, NULL);
	return nanosleep(&span, &rest) && errno == EINTR && is_signalled &&
	       (rest.tv_sec == 7 || rest.tv_sec == 8);
}

static void *sleep_long(void *unused)
{
	sleep(1000);
	return unused;
}

/* A thread that sleeps is cancelled after two seconds. */
static bool by_cancelled_sleep(void)
{
	pthread_t thread;
	void *result;

	pthread_create(&thread, NULL, sleep_long, NULL);
	sleep(2);
	return !pthread_cancel(thread) && !pthread_join(thread, &result) &&
	       result == PTHREAD_CANCELED;
}

static const struct timed_wait WAITS[] = {
	{ "timerfd", by_timerfd },
	{ "timerfd_period", by_timerfd_period },
	{ "absolute_timerfd", by_absolute_timerfd },
	{ "timer", by_timer },
	{ "alarm", by_alarm },
	{ "ualarm", by_ualarm },
	{ "setitimer", by_setitimer },
	{ "interrupted_sleep", by_interrupted_sleep },
	{ "cancelled_sleep", by_cancelled_sleep },
};

int main(int count, char **words)
{
	make_waits(WAITS, sizeof(WAITS) / sizeof(*WAITS),
		   count > 1 ? words[1] : NULL);
	return 0;
}
