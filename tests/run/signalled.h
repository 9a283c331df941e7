/* SPDX-License-Identifier: MIT OR Apache-2.0 */
/* signalled.h - waits and timers, during which signalled.c sends a signal. */
#ifndef SIGNALLED_H
#define SIGNALLED_H

#include <errno.h>
#include <poll.h>
#include <pthread.h>
#include <semaphore.h>
#include <signal.h>
#include <stdbool.h>
#include <sys/select.h>
#include <sys/time.h>
#include <sys/timerfd.h>
#include <time.h>
#include <unistd.h>

enum { ERRNO = 77 }; /* what each call leaves in errno */

static volatile sig_atomic_t taken; /* how often the signal was */

static struct timespec now(clockid_t clock)
{
	struct timespec time = { -1, 0 };

	clock_gettime(clock, &time);
	return time;
}

/* A wait ends by its time, or by the signal. It leaves errno for the test. */
static bool is_over(int error, int at_time)
{
	errno = ERRNO;
	return error == at_time || (error == EINTR && taken);
}

static const struct timespec SPAN = { 0, 1000000 };

/* A handler that sets REALTIME lets this time come sooner. */
static struct timespec soon(void)
{
	struct timespec time = now(CLOCK_REALTIME);

	time.tv_sec += time.tv_nsec / 999000000;
	time.tv_nsec = time.tv_nsec % 999000000 + 1000000;
	return time;
}

static bool sleep_once(void)
{
	return is_over(nanosleep(&SPAN, NULL) ? errno : 0, 0);
}

static bool sleep_until(void)
{
	struct timespec time = soon();

	return is_over(clock_nanosleep(CLOCK_REALTIME, TIMER_ABSTIME, &time, NULL), 0);
}

static bool wait_files(void)
{
	return is_over(poll(NULL, 0, 1) < 0 ? errno : 0, 0);
}

static bool select_files(void)
{
	struct timeval span = { 0, 1000 };

	return is_over(select(0, NULL, NULL, NULL, &span) < 0 ? errno : 0, 0);
}

static bool wait_signal(void)
{
	sigset_t set;

	sigemptyset(&set);
	sigaddset(&set, SIGUSR2);
	return is_over(sigtimedwait(&set, NULL, &SPAN) < 0 ? errno : 0, EAGAIN);
}

static bool wait_semaphore(void)
{
	struct timespec time = soon();
	sem_t semaphore;

	sem_init(&semaphore, 0, 0);
	return is_over(sem_timedwait(&semaphore, &time) ? errno : 0, ETIMEDOUT);
}

/* No signal ends the wait of a condition variable. After a set it may end early. */
static bool wait_condition(void)
{
	pthread_mutex_t mutex = PTHREAD_MUTEX_INITIALIZER;
	pthread_cond_t condition = PTHREAD_COND_INITIALIZER;
	struct timespec time = soon();
	int error = 0;

	pthread_mutex_lock(&mutex);
	while (!error)
		error = pthread_cond_timedwait(&condition, &mutex, &time);
	return !pthread_mutex_unlock(&mutex) && is_over(error, ETIMEDOUT);
}

static bool set_file(void)
{
	struct itimerspec spec = { .it_value = { 100, 5 } }, old = { 0 };
	int file = timerfd_create(CLOCK_MONOTONIC, 0);
	bool is_set = !timerfd_settime(file, 0, &spec, NULL) &&
		      !timerfd_gettime(file, &old) && old.it_value.tv_sec / 10 == 9;

	return !close(file) && is_set;
}

static bool set_timer(void)
{
	struct itimerspec spec = { .it_value = { 100, 5 } }, old = { 0 };
	timer_t timer;

	return !timer_create(CLOCK_MONOTONIC, NULL, &timer) &&
	       !timer_settime(timer, 0, &spec, NULL) &&
	       !timer_settime(timer, 0, &spec, &old) && old.it_value.tv_sec / 10 == 9 &&
	       !timer_delete(timer);
}

static bool set_alarm(void)
{
	return !alarm(100) && alarm(0) / 10 >= 9;
}

#endif
