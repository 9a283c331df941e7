/* SPDX-License-Identifier: MIT OR Apache-2.0 */
/*
 * Lets a timer with a period of 0.25 s expire while its signal is blocked, and prints the
 * overruns: those that the handler gets, and those of timer_getoverrun. A process gets the
 * signals of the first timer, and a thread those of the second one. Another timer has the same
 * signal, and doesn't expire. Then one expires for another thread between two expiries, and its
 * signal stays pending.
 */
#define _GNU_SOURCE
#include <pthread.h>
#include <signal.h>
#include <stdint.h>
#include <stdio.h>
#include <sys/syscall.h>
#include <sys/timerfd.h>
#include <time.h>
#include <unistd.h>

#ifndef sigev_notify_thread_id
#define sigev_notify_thread_id _sigev_un._tid
#endif

static const struct itimerspec PERIOD = { { 0, 250000000 }, { 0, 250000000 } };
static const struct itimerspec LATER = { { 0, 0 }, { 3600, 0 } };
static volatile sig_atomic_t signals, overruns;

static void count(int number, siginfo_t *info, void *context)
{
	(void)number;
	(void)context;
	signals++;
	overruns += info->si_overrun;
}

static void nap(long millis)
{
	struct timespec span = { millis / 1000, millis % 1000 * 1000000 };

	nanosleep(&span, NULL);
}

static void print_next(timer_t timer, const sigset_t *set)
{
	siginfo_t info = { 0 };
	int number = sigwaitinfo(set, &info);

	printf("got %d overrun %d %d\n", number == SIGUSR1, info.si_overrun,
	       timer_getoverrun(timer));
}

static void print_timer(int notify)
{
	struct sigevent event = { .sigev_notify = notify,
				  .sigev_signo = SIGUSR1 };
	timer_t timer, other;
	sigset_t set;

	event.sigev_notify_thread_id = (int)syscall(SYS_gettid);
	sigemptyset(&set);
	sigaddset(&set, SIGUSR1);
	sigprocmask(SIG_BLOCK, &set, NULL);
	signals = overruns = 0;
	if (timer_create(CLOCK_MONOTONIC, &event, &other) ||
	    timer_settime(other, 0, &LATER, NULL) ||
	    timer_create(CLOCK_MONOTONIC, &event, &timer) ||
	    timer_settime(timer, 0, &PERIOD, NULL))
		perror("overruns");
	nap(1100);
	sigprocmask(SIG_UNBLOCK, &set, NULL);
	printf("signals %d si_overrun %d getoverrun %d\n", signals, overruns,
	       timer_getoverrun(timer));
	sigprocmask(SIG_BLOCK, &set, NULL);
	nap(300);
	print_next(timer, &set);
	nap(700);
	print_next(timer, &set);
	timer_delete(timer);
	timer_delete(other);
}

static _Atomic int other_thread;

static void *sleep_long(void *unused)
{
	other_thread = (int)syscall(SYS_gettid);
	nap(10000);
	return unused;
}

static timer_t start_timer(int thread, const struct itimerspec *spec)
{
	struct sigevent event = { .sigev_notify = SIGEV_THREAD_ID, .sigev_signo = SIGUSR1 };
	timer_t timer = 0;

	event.sigev_notify_thread_id = thread;
	if (timer_create(CLOCK_MONOTONIC, &event, &timer) ||
	    timer_settime(timer, 0, spec, NULL))
		perror("overruns");
	return timer;
}

/* SIGUSR1 is blocked in both threads. */
static void print_other_thread(void)
{
	static const struct itimerspec ONCE = { { 0, 0 }, { 0, 300000000 } };
	timer_t timer, other;
	pthread_t thread;
	sigset_t set;

	sigemptyset(&set);
	sigaddset(&set, SIGUSR1);
	pthread_create(&thread, NULL, sleep_long, NULL);
	while (!other_thread)
		nap(1);
	other = start_timer(other_thread, &ONCE);
	timer = start_timer((int)syscall(SYS_gettid), &PERIOD);
	nap(1100);
	print_next(timer, &set);
	timer_delete(timer);
	timer_delete(other);
	pthread_join(thread, NULL);
}

int main(void)
{
	struct sigaction action = { .sa_sigaction = count,
				    .sa_flags = SA_SIGINFO };
	int file = timerfd_create(CLOCK_MONOTONIC, 0);
	uint64_t expiries;

	sigaction(SIGUSR1, &action, NULL);
	print_timer(SIGEV_SIGNAL);
	print_timer(SIGEV_THREAD_ID);
	print_other_thread();
	timerfd_settime(file, 0, &PERIOD, NULL);
	for (int millis = 1100; millis; millis = millis == 1100 ? 100 : 0) {
		nap(millis);
		if (read(file, &expiries, sizeof(expiries)) < 0)
			perror("overruns");
		printf("timerfd %d\n", (int)expiries);
	}
	return 0;
}
