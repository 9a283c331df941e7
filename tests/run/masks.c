/* SPDX-License-Identifier: MIT OR Apache-2.0 */
/*
 * Makes each call that tkrun answers with several signals blocked, in the first thread and in another
 * one. Prints each after which others are blocked, or a signal isn't taken once, when it may be.
 *
 *     masks [static]     without the waits of locks, which are the host's in a static program
 */
#define _GNU_SOURCE
#include <fcntl.h>
#include <poll.h>
#include <pthread.h>
#include <semaphore.h>
#include <signal.h>
#include <stdbool.h>
#include <stdio.h>
#include <stdlib.h>
#include <string.h>
#include <sys/epoll.h>
#include <sys/select.h>
#include <sys/syscall.h>
#include <sys/time.h>
#include <sys/timerfd.h>
#include <sys/timex.h>
#include <sys/wait.h>
#include <time.h>
#include <unistd.h>

enum { SET_BYTES = 8, READS = 200 };

static const struct timespec SPAN = { 0, 10000000 };
static int faults;
static bool is_static;

/* By the kernel's own call. */
static unsigned long blocked(void)
{
	unsigned long set = 0;

	syscall(SYS_rt_sigprocmask, SIG_BLOCK, NULL, &set, SET_BYTES);
	return set;
}

static void block(unsigned long set)
{
	syscall(SYS_rt_sigprocmask, SIG_SETMASK, &set, NULL, SET_BYTES);
}

/* On a counter that runs, some let a second begin. */
static void read_clocks(void)
{
	struct timespec time;

	for (int i = 0; i < READS; i++)
		for (clockid_t clock = 0; clock <= CLOCK_TAI; clock++)
			clock_gettime(clock, &time);
}

static void read_micros(void)
{
	struct timezone zone;
	struct timeval time;

	gettimeofday(&time, &zone);
	syscall(SYS_gettimeofday, &time, NULL);
}

static void set_time(void)
{
	clock_settime(CLOCK_REALTIME, &(struct timespec){ 2000000000, 5 });
}

static void set_bad_time(void)
{
	clock_settime(CLOCK_REALTIME, &(struct timespec){ -5, 5 });
}

static void set_micros(void)
{
	struct timeval time = { 2000000000, 5 };
	struct timezone zone = { 0, 0 };

	settimeofday(&time, &zone);
	syscall(SYS_settimeofday, &time, NULL);
}

static void read_state(void)
{
	struct timex tx = { 0 };
	struct ntptimeval all;

	adjtimex(&tx);
	ntp_gettime(&all);
	adjtime(NULL, NULL);
}

static void steer(void)
{
	struct timeval span = { 0, 5 };
	struct timex tx = { .modes = ADJ_FREQUENCY, .freq = 65536 };

	clock_adjtime(CLOCK_REALTIME, &tx);
	adjtime(&span, NULL);
}

static void steer_badly(void)
{
	struct timex tx = { .modes = ADJ_TICK, .tick = 5 };

	adjtimex(&tx);
}

static void step(void)
{
	struct timex tx = { .modes = 0x100 /* ADJ_SETOFFSET */, .time = { 5, 5 } };

	ntp_adjtime(&tx);
}

static struct timespec soon(void)
{
	struct timespec time;

	clock_gettime(CLOCK_REALTIME, &time);
	time.tv_sec++;
	return time;
}

static void sleep_once(void)
{
	nanosleep(&SPAN, NULL);
}

static void sleep_by_clock(void)
{
	struct timespec time = soon();

	clock_nanosleep(CLOCK_BOOTTIME, 0, &SPAN, NULL);
	clock_nanosleep(CLOCK_REALTIME, TIMER_ABSTIME, &time, NULL);
}

static void wait_files(void)
{
	struct timeval micros = { 0, 10000 };

	poll(NULL, 0, 10);
	select(0, NULL, NULL, NULL, &micros);
}

static void wait_files_with_masks(void)
{
	struct epoll_event event;
	int file = epoll_create1(0);
	sigset_t one;

	sigemptyset(&one);
	sigaddset(&one, SIGUSR1);
	ppoll(NULL, 0, &SPAN, &one);
	pselect(0, NULL, NULL, NULL, &SPAN, &one);
	epoll_wait(file, &event, 1, 10);
	epoll_pwait(file, &event, 1, 10, &one);
	close(file);
}

static void wait_locks(void)
{
	pthread_mutex_t mutex = PTHREAD_MUTEX_INITIALIZER;
	pthread_cond_t condition = PTHREAD_COND_INITIALIZER;
	struct timespec time = soon();
	sem_t semaphore;

	sem_init(&semaphore, 0, 0);
	sem_timedwait(&semaphore, &time);
	pthread_mutex_lock(&mutex);
	time = soon();
	pthread_cond_timedwait(&condition, &mutex, &time);
	pthread_mutex_unlock(&mutex);
}

static void set_timers(void)
{
	struct sigevent event = { .sigev_notify = SIGEV_NONE };
	struct itimerspec spec = { .it_value = SPAN };
	int file = timerfd_create(CLOCK_REALTIME, 0);
	timer_t timer;

	timerfd_settime(file, 0, &spec, NULL);
	timerfd_gettime(file, &spec);
	close(file);
	timer_create(CLOCK_MONOTONIC, &event, &timer);
	timer_settime(timer, 0, &spec, NULL);
	timer_gettime(timer, &spec);
	timer_getoverrun(timer);
	timer_delete(timer);
}

static void set_alarms(void)
{
	setitimer(ITIMER_REAL, &(struct itimerval){ .it_value = { 100, 0 } }, NULL);
	alarm(0);
}

static void make_child(void)
{
	pid_t child = fork();

	if (!child)
		_exit(0);
	waitpid(child, NULL, 0);
}

static const char WAIT_LOCKS[] = "sem_timedwait";

static const struct {
	const char *name;
	void (*make)(void);
} CALLS[] = {
	{ "clock_gettime", read_clocks },
	{ "gettimeofday", read_micros },
	{ "clock_settime", set_time },
	{ "a refused clock_settime", set_bad_time },
	{ "settimeofday", set_micros },
	{ "a read of adjtimex", read_state },
	{ "adjtimex", steer },
	{ "a refused adjtimex", steer_badly },
	{ "a step of adjtimex", step },
	{ "nanosleep", sleep_once },
	{ "clock_nanosleep", sleep_by_clock },
	{ "poll", wait_files },
	{ "ppoll", wait_files_with_masks },
	{ WAIT_LOCKS, wait_locks },
	{ "timers", set_timers },
	{ "alarms", set_alarms },
	{ "fork", make_child },
};

static volatile sig_atomic_t taken;

static void take(int number)
{
	(void)number;
	taken++;
}

static unsigned long bit(int number)
{
	return 1UL << (number - 1);
}

static void check_call(size_t call, unsigned long set, const char *thread)
{
	int was = taken;

	if (is_static && CALLS[call].name == WAIT_LOCKS)
		return;
	block(set);
	syscall(SYS_tgkill, getpid(), gettid(), SIGUSR1);
	CALLS[call].make();
	if (blocked() != set) {
		printf("%s in %s: %#lx is blocked, not %#lx\n", CALLS[call].name, thread,
		       blocked(), set);
		faults++;
	}
	if (set & bit(SIGUSR1) && taken != was) {
		printf("%s in %s: a blocked signal was taken\n", CALLS[call].name, thread);
		faults++;
	}
	block(0);
	if (taken != was + 1) {
		printf("%s in %s: the signal was taken %d times\n", CALLS[call].name, thread,
		       taken - was);
		faults++;
	}
}

static void *check_calls(void *thread)
{
	const unsigned long most = ~(bit(SIGKILL) | bit(SIGSTOP) | bit(32) | bit(33));
	const unsigned long sets[] = { 0, bit(SIGUSR1), bit(SIGUSR1) | bit(SIGTERM) | bit(SIGALRM),
				       most };

	for (size_t call = 0; call < sizeof(CALLS) / sizeof(*CALLS); call++)
		for (size_t i = 0; i < sizeof(sets) / sizeof(*sets); i++)
			check_call(call, sets[i], thread);
	return NULL;
}

int main(int count, char **words)
{
	struct sigaction action = { .sa_handler = take };
	pthread_t thread;

	is_static = count > 1 && !strcmp(words[1], "static");
	sigaction(SIGUSR1, &action, NULL);
	check_calls("the first thread");
	pthread_create(&thread, NULL, check_calls, "another thread");
	pthread_join(thread, NULL);
	return faults > 0;
}
