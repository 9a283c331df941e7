/* SPDX-License-Identifier: MIT OR Apache-2.0 */
/*
 * Makes waits for a span, each in its own process, and prints what became of them:
 * the name, the error that ended the wait, by how many ns MONOTONIC has moved on, the ns
 * that the call states as left, the signals, the mask, and how often the thread has slept.
 *
 *     spans MS              the span ends each wait
 *     spans MS after MS     a signal comes after this many ms
 *
 * It runs on the host's clocks too, and prints the same names, errors and rests there. All
 * signals that were blocked before a wait are blocked after it, and no other.
 */
#define _GNU_SOURCE
#include "spans.h"

#include <poll.h>
#include <pthread.h>
#include <sys/epoll.h>
#include <sys/select.h>
#include <sys/sem.h>
#include <sys/time.h>
#include <threads.h>

static int by_nanosleep(int64_t span, int64_t *left)
{
	struct timespec time = span_of(span), rest = { 0 };
	int error = nanosleep(&time, &rest) ? errno : 0;

	*left = error ? nanos(rest) : 0;
	return error;
}

static int by_clock_nanosleep(int64_t span, int64_t *left)
{
	struct timespec time = span_of(span), rest = { 0 };
	int error = clock_nanosleep(CLOCK_BOOTTIME, 0, &time, &rest);

	*left = error ? nanos(rest) : 0;
	return error;
}

static int by_absolute_sleep(int64_t span, int64_t *left)
{
	struct timespec time = after(CLOCK_REALTIME, span);

	(void)left;
	return clock_nanosleep(CLOCK_REALTIME, TIMER_ABSTIME, &time, NULL);
}

static int by_tai_sleep(int64_t span, int64_t *left)
{
	struct timespec time = after(CLOCK_TAI, span);

	(void)left;
	return clock_nanosleep(CLOCK_TAI, TIMER_ABSTIME, &time, NULL);
}

static int by_usleep(int64_t span, int64_t *left)
{
	(void)left;
	return usleep((useconds_t)(span / 1000)) ? errno : 0;
}

static int by_thrd_sleep(int64_t span, int64_t *left)
{
	struct timespec time = span_of(span), rest = { 0 };
	int result = thrd_sleep(&time, &rest);

	*left = result ? nanos(rest) : 0;
	return result ? EINTR : 0;
}

static int by_poll(int64_t span, int64_t *left)
{
	struct pollfd file = { silent_file(), POLLIN, 0 };

	(void)left;
	return error_of(poll(&file, 1, (int)(span / MILLION)), 0);
}

static int by_ppoll(int64_t span, int64_t *left)
{
	struct pollfd file = { silent_file(), POLLIN, 0 };
	struct timespec time = span_of(span);

	(void)left;
	return error_of(ppoll(&file, 1, &time, NULL), 0);
}

static int by_masked_ppoll(int64_t span, int64_t *left)
{
	struct timespec time = span_of(span);
	sigset_t none;

	(void)left;
	sigemptyset(&none);
	block_except(0);
	return error_of(ppoll(NULL, 0, &time, &none), 0);
}

static int by_select(int64_t span, int64_t *left)
{
	struct timeval time = { span / BILLION, span % BILLION / 1000 };
	int file = silent_file(), error;
	fd_set set;

	FD_ZERO(&set);
	FD_SET(file, &set);
	error = error_of(select(file + 1, &set, NULL, NULL, &time), 0);
	*left = time.tv_sec * BILLION + time.tv_usec * 1000;
	if (!error != !FD_ISSET(file, &set))
		error = EBADF; /* the set is empty if the time has come */
	return error;
}

static int by_pselect(int64_t span, int64_t *left)
{
	struct timespec time = span_of(span);
	int result;

	result = pselect(0, NULL, NULL, NULL, &time, NULL);
	*left = nanos(time) - span; /* it leaves the span */
	return error_of(result, 0);
}

static int by_epoll_wait(int64_t span, int64_t *left)
{
	struct epoll_event event;

	(void)left;
	return error_of(epoll_wait(epoll_create1(0), &event, 1,
				   (int)(span / MILLION)),
			0);
}

static int by_epoll_pwait(int64_t span, int64_t *left)
{
	struct epoll_event event;
	sigset_t none;

	(void)left;
	sigemptyset(&none);
	block_except(0);
	return error_of(epoll_pwait(epoll_create1(0), &event, 1,
				    (int)(span / MILLION), &none),
			0);
}

static int by_epoll_pwait2(int64_t span, int64_t *left)
{
	struct timespec time = span_of(span);
	struct epoll_event event;

	(void)left;
	return error_of(epoll_pwait2(epoll_create1(0), &event, 1, &time, NULL),
			0);
}

static int by_sigtimedwait(int64_t span, int64_t *left)
{
	struct timespec time = span_of(span);
	sigset_t set;

	(void)left;
	sigemptyset(&set);
	sigaddset(&set, SIGUSR2);
	return error_of(sigtimedwait(&set, NULL, &time), EAGAIN);
}

/* All signals but one are blocked, and the thread waits for them. */
static int by_full_sigtimedwait(int64_t span, int64_t *left)
{
	struct timespec time = span_of(span);
	sigset_t set;

	(void)left;
	sigfillset(&set);
	sigdelset(&set, SIGUSR1);
	sigdelset(&set, SIGCHLD); /* the process that sends the signal ends */
	block_except(SIGUSR1);
	return error_of(sigtimedwait(&set, NULL, &time), EAGAIN);
}

static int by_semtimedop(int64_t span, int64_t *left)
{
	int set = semget(IPC_PRIVATE, 1, 0600), result, error;
	struct timespec time = span_of(span);
	struct sembuf take = { 0, -1, 0 };

	(void)left;
	result = semtimedop(set, &take, 1, &time);
	error = error_of(result, EAGAIN);
	semctl(set, 0, IPC_RMID);
	return error;
}

static int by_mq_timedreceive(int64_t span, int64_t *left)
{
	struct timespec time = after(CLOCK_REALTIME, span);
	char text[1];

	(void)left;
	return error_of((int)mq_timedreceive(open_queue(), text, 1, NULL,
					     &time),
			ETIMEDOUT);
}

static int by_mq_timedsend(int64_t span, int64_t *left)
{
	struct timespec time = after(CLOCK_REALTIME, span);
	mqd_t queue = open_queue();

	(void)left;
	mq_send(queue, "a", 1, 0);
	return error_of(mq_timedsend(queue, "b", 1, 0, &time), ETIMEDOUT);
}

static const struct span_wait WAITS[] = {
	{ "nanosleep", by_nanosleep },
	{ "clock_nanosleep", by_clock_nanosleep },
	{ "absolute_sleep", by_absolute_sleep },
	{ "tai_sleep", by_tai_sleep },
	{ "usleep", by_usleep },
	{ "thrd_sleep", by_thrd_sleep },
	{ "poll", by_poll },
	{ "ppoll", by_ppoll },
	{ "masked_ppoll", by_masked_ppoll },
	{ "select", by_select },
	{ "pselect", by_pselect },
	{ "epoll_wait", by_epoll_wait },
	{ "epoll_pwait", by_epoll_pwait },
	{ "epoll_pwait2", by_epoll_pwait2 },
	{ "sigtimedwait", by_sigtimedwait },
	{ "full_sigtimedwait", by_full_sigtimedwait },
	{ "semtimedop", by_semtimedop },
	{ "mq_timedreceive", by_mq_timedreceive },
	{ "mq_timedsend", by_mq_timedsend },
};

int main(int count, char **words)
{
	return make_spans(WAITS, sizeof(WAITS) / sizeof(*WAITS), count, words);
}
