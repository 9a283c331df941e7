/* SPDX-License-Identifier: MIT OR Apache-2.0 */
/*
 * Makes waits with wrong arguments, with none to wait for, and until times that are past,
 * and prints the error of each, or what it returns. It runs on the host's clocks too, and
 * prints the same there.
 */
#define _GNU_SOURCE
#include "spans.h"

#include <linux/futex.h>
#include <poll.h>
#include <pthread.h>
#include <semaphore.h>
#include <sys/epoll.h>
#include <sys/select.h>
#include <sys/sem.h>
#include <sys/syscall.h>
#include <sys/time.h>
#include <sys/timerfd.h>

static void print(const char *name, int number, long result)
{
	printf("%s %d %s\n", name, number,
	       result < 0 ? strerrorname_np(errno) : result ? "more" : "0");
}

static void print_error(const char *name, int number, int error)
{
	printf("%s %d %s\n", name, number, error ? strerrorname_np(error) : "0");
}

/* None of these is waited for: they are wrong, or no time. */
static const struct timespec SPANS[] = {
	{ 0, 0 }, { 0, -1 }, { 0, BILLION }, { -1, 0 }, { 1, -5 }, { -1, 5 },
};

/* Times that are past, or wrong. */
static const struct timespec TIMES[] = {
	{ 0, 0 }, { 1, 999999999 }, { 1, BILLION }, { 1, -1 }, { -1, 0 },
};

static void print_spans(int i, const struct timespec *span)
{
	struct epoll_event event;
	struct timespec rest = { 0 }, own = *span;
	struct sembuf take = { 0, -1, 0 };
	sigset_t set;
	int sems = semget(IPC_PRIVATE, 1, 0600);
	uint32_t word = 0;

	sigemptyset(&set);
	sigaddset(&set, SIGUSR2);
	print("nanosleep", i, nanosleep(span, &rest));
	print_error("clock_nanosleep", i,
		    clock_nanosleep(CLOCK_MONOTONIC, 0, span, &rest));
	print("ppoll", i, ppoll(NULL, 0, span, NULL));
	print("pselect", i, pselect(0, NULL, NULL, NULL, span, NULL));
	print("epoll_pwait2", i,
	      epoll_pwait2(epoll_create1(0), &event, 1, span, NULL));
	print("sigtimedwait", i, sigtimedwait(&set, NULL, span));
	print("semtimedop", i, semtimedop(sems, &take, 1, span));
	print("futex", i,
	      syscall(SYS_futex, &word, FUTEX_WAIT, 0, &own, NULL, 0));
	semctl(sems, 0, IPC_RMID);
}

static void print_micros(void)
{
	static const struct timeval SPANS[] = {
		{ 0, 0 }, { -1, 0 }, { 0, -1 }, { -1, 5 }, { 0, -1000000 },
	};

	for (int i = 0; i < 5; i++) {
		struct timeval span = SPANS[i];

		print("select", i, select(0, NULL, NULL, NULL, &span));
	}
}

static pthread_mutex_t mutex = PTHREAD_MUTEX_INITIALIZER;
static pthread_cond_t cond = PTHREAD_COND_INITIALIZER;
static pthread_rwlock_t rwlock = PTHREAD_RWLOCK_INITIALIZER;

static void print_locks(int i, const struct timespec *time)
{
	sem_t semaphore;

	sem_init(&semaphore, 0, 0);
	print("sem_timedwait", i, sem_timedwait(&semaphore, time));
	print("sem_clockwait", i,
	      sem_clockwait(&semaphore, CLOCK_MONOTONIC, time));
	print_error("cond_timedwait", i,
		    pthread_cond_timedwait(&cond, &mutex, time));
	print_error("cond_clockwait", i,
		    pthread_cond_clockwait(&cond, &mutex, CLOCK_MONOTONIC,
					   time));
	print_error("mutex_timedlock", i,
		    pthread_mutex_timedlock(&mutex, time));
	print_error("mutex_clocklock", i,
		    pthread_mutex_clocklock(&mutex, CLOCK_MONOTONIC, time));
	print_error("timedrdlock", i,
		    pthread_rwlock_timedrdlock(&rwlock, time));
	print_error("clockrdlock", i,
		    pthread_rwlock_clockrdlock(&rwlock, CLOCK_MONOTONIC,
					       time));
}

static void print_times(int i, const struct timespec *time)
{
	uint32_t word = 0;
	mqd_t queue = open_queue();
	char text[1];

	print_error("absolute_sleep", i,
		    clock_nanosleep(CLOCK_REALTIME, TIMER_ABSTIME, time, NULL));
	print("mq_timedreceive", i,
	      mq_timedreceive(queue, text, 1, NULL, time));
	print("futex_bitset", i,
	      syscall(SYS_futex, &word, FUTEX_WAIT_BITSET, 0, time, NULL,
		      FUTEX_BITSET_MATCH_ANY));
}

static void print_others(void)
{
	struct itimerspec spec = { { 0, 0 }, { 1, 0 } };
	struct timespec span = { 0, 1 };
	struct pollfd *volatile no_files = NULL; /* gcc would warn */
	struct epoll_event event;
	timer_t timer;

	print("timerfd_settime", 0, timerfd_settime(-1, 0, &spec, NULL));
	print("timerfd_settime", 1, timerfd_settime(0, 0, &spec, NULL));
	print("timerfd_gettime", 0, timerfd_gettime(-1, &spec));
	print("timerfd_create", 0, timerfd_create(77, 0));
	print("timerfd_create", 1, timerfd_create(CLOCK_MONOTONIC, 1 << 30));
	print("timer_create", 0, timer_create(77, NULL, &timer));
	print_error("clock_nanosleep", 10,
		    clock_nanosleep(CLOCK_MONOTONIC_RAW, 0, &span, NULL));
	print_error("clock_nanosleep", 11,
		    clock_nanosleep(CLOCK_REALTIME_COARSE, 0, &span, NULL));
	print_error("clock_nanosleep", 12, clock_nanosleep(77, 0, &span, NULL));
	print("epoll_wait", 0, epoll_wait(-1, &event, 1, 10));
	print("epoll_wait", 1, epoll_wait(epoll_create1(0), &event, 0, 10));
	print("poll", 0, poll(no_files, 1 << 30, 10));
	print("select", 10, select(-1, NULL, NULL, NULL, NULL));
	print("pselect", 10, pselect(-1, NULL, NULL, NULL, &span, NULL));
}

/* The kernel has sets of 8 bytes, and refuses another size. */
static void print_sizes(void)
{
	struct timespec span = { 0, 1 };
	struct epoll_event event;
	struct {
		const sigset_t *set;
		size_t size;
	} mask = { NULL, 4 };
	sigset_t none;
	int file = epoll_create1(0);

	sigemptyset(&none);
	mask.set = &none;
	print("ppoll", 11, syscall(SYS_ppoll, NULL, 0, &span, &none, 4));
	print("pselect6", 0, syscall(SYS_pselect6, 0, NULL, NULL, NULL, &span, &mask));
	print("epoll_pwait", 0, syscall(SYS_epoll_pwait, file, &event, 1, 1, &none, 4));
	print("epoll_pwait2", 10, syscall(SYS_epoll_pwait2, file, &event, 1, &span, &none, 16));
	print("rt_sigtimedwait", 0, syscall(SYS_rt_sigtimedwait, &none, NULL, &span, 4));
}

/* No kernel has a call with one of these numbers: below all, between two, and above all. */
static void print_numbers(void)
{
	static const long NUMBERS[] = { -1, -400, 400, 100000 };

	for (int i = 0; i < 4; i++)
		print("syscall", i, syscall(NUMBERS[i], 1, 2, 3, 4, 5, 6));
}

int main(void)
{
	pthread_mutex_lock(&mutex);
	pthread_rwlock_wrlock(&rwlock);
	for (int i = 0; i < 6; i++)
		print_spans(i, &SPANS[i]);
	for (int i = 0; i < 5; i++) {
		print_locks(i, &TIMES[i]);
		print_times(i, &TIMES[i]);
	}
	print_micros();
	print_others();
	print_sizes();
	print_numbers();
	return 0;
}
