/* SPDX-License-Identifier: MIT OR Apache-2.0 */
/* Makes each timed wait that libtkrun.so answers for syscall(2), except for those that
 * waits.c makes. */
#define _GNU_SOURCE
#include "timed.h"

#include <errno.h>
#include <linux/futex.h>
#include <pthread.h>
#include <sched.h>
#include <signal.h>
#include <sys/epoll.h>
#include <sys/sem.h>
#include <sys/syscall.h>
#include <sys/time.h>
#include <unistd.h>

#ifndef SYS_futex_waitv
#define SYS_futex_waitv 449
#endif
#ifndef FUTEX_LOCK_PI2
#define FUTEX_LOCK_PI2 13
#endif

enum { SET_BYTES = 8 };

static bool is_zero(const struct timespec *span)
{
	return !span->tv_sec && !span->tv_nsec;
}

static bool by_nanosleep(void)
{
	return !syscall(SYS_nanosleep, &SPAN, NULL);
}

static bool by_clock_nanosleep(void)
{
	struct timespec time = until(CLOCK_REALTIME);

	return !syscall(SYS_clock_nanosleep, CLOCK_REALTIME, TIMER_ABSTIME,
			&time, NULL);
}

static bool by_poll(void)
{
	return !syscall(SYS_poll, NULL, 0, 2000);
}

/* The kernel stores what is left of the span. */
static bool by_ppoll(void)
{
	struct timespec span = SPAN;

	return !syscall(SYS_ppoll, NULL, 0, &span, NULL, SET_BYTES) &&
	       is_zero(&span);
}

static bool by_select(void)
{
	struct timeval span = { 2, 0 };

	return !syscall(SYS_select, 0, NULL, NULL, NULL, &span) &&
	       !span.tv_sec && !span.tv_usec;
}

static bool by_pselect(void)
{
	struct timespec span = SPAN;
	sigset_t none;
	struct {
		const sigset_t *set;
		size_t size;
	} mask = { &none, SET_BYTES };

	sigemptyset(&none);
	return !syscall(SYS_pselect6, 0, NULL, NULL, NULL, &span, &mask) &&
	       is_zero(&span);
}

static bool by_epoll_wait(void)
{
	struct epoll_event event;

	return !syscall(SYS_epoll_wait, epoll_create1(0), &event, 1, 2000);
}

static bool by_epoll_pwait(void)
{
	struct epoll_event event;

	return !syscall(SYS_epoll_pwait, epoll_create1(0), &event, 1, 2000,
			NULL, SET_BYTES);
}

static bool by_epoll_pwait2(void)
{
	struct epoll_event event;

	return !syscall(SYS_epoll_pwait2, epoll_create1(0), &event, 1, &SPAN,
			NULL, SET_BYTES);
}

static bool by_sigtimedwait(void)
{
	sigset_t set;

	sigemptyset(&set);
	sigaddset(&set, SIGUSR2);
	return syscall(SYS_rt_sigtimedwait, &set, NULL, &SPAN, SET_BYTES) < 0 &&
	       errno == EAGAIN;
}

static bool by_semtimedop(void)
{
	int set = semget(IPC_PRIVATE, 1, 0600);
	struct sembuf take = { 0, -1, 0 };
	bool is_over = syscall(SYS_semtimedop, set, &take, 1, &SPAN) < 0 &&
		       errno == EAGAIN;

	return !semctl(set, 0, IPC_RMID) && is_over;
}

static bool by_mq_timedreceive(void)
{
	struct timespec time = until(CLOCK_REALTIME);
	char text[1];

	return syscall(SYS_mq_timedreceive, open_queue(), text, 1, NULL,
		       &time) < 0 &&
	       errno == ETIMEDOUT;
}

static bool by_mq_timedsend(void)
{
	struct timespec time = until(CLOCK_REALTIME);
	mqd_t queue = open_queue();

	return !mq_send(queue, "a", 1, 0) &&
	       syscall(SYS_mq_timedsend, queue, "b", 1, 0, &time) < 0 &&
	       errno == ETIMEDOUT;
}

static uint32_t taken;

static void *take_lock(void *unused)
{
	syscall(SYS_futex, &taken, FUTEX_LOCK_PI, 0, NULL, NULL, 0);
	pause();
	return unused;
}

/* Another thread has the lock, so the wait for it ends by its time. */
static bool wait_lock(long operation, clockid_t clock)
{
	struct timespec time;
	pthread_t thread;

	taken = 0;
	pthread_create(&thread, NULL, take_lock, NULL);
	while (!__atomic_load_n(&taken, __ATOMIC_SEQ_CST))
		sched_yield();
	time = until(clock);
	return syscall(SYS_futex, &taken, operation, 0, &time, NULL, 0) < 0 &&
	       errno == ETIMEDOUT;
}

static bool by_lock_pi(void)
{
	return wait_lock(FUTEX_LOCK_PI, CLOCK_REALTIME);
}

static bool by_lock_pi2(void)
{
	return wait_lock(FUTEX_LOCK_PI2, CLOCK_MONOTONIC);
}

static bool by_futex_waitv(void)
{
	struct timespec time = until(CLOCK_REALTIME);
	uint32_t word = 0;
	struct {
		uint64_t value, address;
		uint32_t flags, reserved;
	} futex = { 0, (uintptr_t)&word, 2, 0 };

	return syscall(SYS_futex_waitv, &futex, 1, 0, &time, CLOCK_REALTIME) <
		       0 &&
	       errno == ETIMEDOUT;
}

/* Waits for a signal that is blocked. */
static bool wait_signal(int number)
{
	sigset_t set;

	sigemptyset(&set);
	sigaddset(&set, number);
	return sigwaitinfo(&set, NULL) == number;
}

static void block(int number)
{
	sigset_t set;

	sigemptyset(&set);
	sigaddset(&set, number);
	sigprocmask(SIG_BLOCK, &set, NULL);
}

static bool by_timer(void)
{
	struct sigevent event = { .sigev_notify = SIGEV_SIGNAL,
				  .sigev_signo = SIGUSR1 };
	struct itimerspec spec = { .it_value = SPAN }, left;
	int timer;

	block(SIGUSR1);
	return !syscall(SYS_timer_create, CLOCK_REALTIME, &event, &timer) &&
	       !syscall(SYS_timer_settime, timer, 0, &spec, NULL) &&
	       !syscall(SYS_timer_gettime, timer, &left) &&
	       left.it_value.tv_sec <= 2 && wait_signal(SIGUSR1) &&
	       !syscall(SYS_timer_gettime, timer, &left) &&
	       is_zero(&left.it_value) && !syscall(SYS_timer_delete, timer) &&
	       syscall(SYS_timer_gettime, timer, &left) && errno == EINVAL;
}

static bool by_timerfd(void)
{
	struct itimerspec spec = { .it_value = SPAN }, left;
	int file = (int)syscall(SYS_timerfd_create, CLOCK_MONOTONIC, 0);
	uint64_t count = 0;

	return !syscall(SYS_timerfd_settime, file, 0, &spec, NULL) &&
	       !syscall(SYS_timerfd_gettime, file, &left) &&
	       left.it_value.tv_sec >= 1 && left.it_value.tv_sec <= 2 &&
	       read(file, &count, sizeof(count)) == sizeof(count) && count == 1;
}

static bool by_alarm(void)
{
	block(SIGALRM);
	return !syscall(SYS_alarm, 2) && wait_signal(SIGALRM);
}

static bool by_setitimer(void)
{
	struct itimerval spec = { .it_value = { 2, 0 } }, left;

	block(SIGALRM);
	return !syscall(SYS_setitimer, ITIMER_REAL, &spec, NULL) &&
	       !syscall(SYS_getitimer, ITIMER_REAL, &left) &&
	       left.it_value.tv_sec <= 2 && wait_signal(SIGALRM);
}

static const struct timed_wait WAITS[] = {
	{ "nanosleep", by_nanosleep },
	{ "clock_nanosleep", by_clock_nanosleep },
	{ "poll", by_poll },
	{ "ppoll", by_ppoll },
	{ "select", by_select },
	{ "pselect6", by_pselect },
	{ "epoll_wait", by_epoll_wait },
	{ "epoll_pwait", by_epoll_pwait },
	{ "epoll_pwait2", by_epoll_pwait2 },
	{ "rt_sigtimedwait", by_sigtimedwait },
	{ "semtimedop", by_semtimedop },
	{ "mq_timedreceive", by_mq_timedreceive },
	{ "mq_timedsend", by_mq_timedsend },
	{ "futex_lock_pi", by_lock_pi },
	{ "futex_lock_pi2", by_lock_pi2 },
	{ "futex_waitv", by_futex_waitv },
	{ "timer", by_timer },
	{ "timerfd", by_timerfd },
	{ "alarm", by_alarm },
	{ "setitimer", by_setitimer },
};

int main(int count, char **words)
{
	make_waits(WAITS, sizeof(WAITS) / sizeof(*WAITS),
		   count > 1 ? words[1] : NULL);
	return 0;
}
