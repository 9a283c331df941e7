/* SPDX-License-Identifier: MIT OR Apache-2.0 */
/*
 * Makes calls with arguments at the edges of what they allow, and prints for each what it returned
 * and by how many ns MONOTONIC has moved on. On the host's clocks it prints the same, except for
 * these ns.
 *
 *     edges           all but the next one
 *     edges slices    waits for a byte that comes after 350 ms, for a file with the number 70
 */
#define _GNU_SOURCE
#include "spans.h"

#include <linux/futex.h>
#include <pthread.h>
#include <signal.h>
#include <sys/epoll.h>
#include <sys/select.h>
#include <sys/sem.h>
#include <sys/syscall.h>
#include <sys/time.h>
#include <sys/timerfd.h>
#include <threads.h>

enum { WIDE_FILE = 70 };

static const size_t SET_BYTES = 8; /* a set of signals, for the kernel */

static int64_t began;

static void begin(void)
{
	began = nanos(now(CLOCK_MONOTONIC));
	errno = 0;
}

static void print(const char *name, long result)
{
	int error = result < 0 ? errno : 0;

	printf("%s %ld %s %lld\n", name, result, error ? strerrorname_np(error) : "-",
	       (long long)(nanos(now(CLOCK_MONOTONIC)) - began));
}

static void on_signal(int number)
{
	(void)number;
}

static void set_alarm(int64_t span)
{
	struct itimerval spec = { .it_value = { span / BILLION, span % BILLION / 1000 } };

	setitimer(ITIMER_REAL, &spec, NULL);
}

/* What is left of a sleep, in whole seconds. */
static void interrupt_sleeps(void)
{
	for (int64_t span = 2200; span <= 2700; span += 500) {
		begin();
		set_alarm(span * MILLION);
		print("sleep", sleep(10));
	}
}

/* What is left of an alarm, to the nearest second. */
static void replace_alarms(void)
{
	static const int64_t SPANS[] = { 100300, 100600, 1700, 300, 700 };

	for (int i = 0; i < 5; i++) {
		set_alarm(SPANS[i] * MILLION);
		begin();
		print("alarm", alarm(0));
	}
	set_alarm(3250 * (int64_t)MILLION);
	begin();
	print("ualarm", ualarm(0, 0));
}

/* A child has no alarm, also if it has another timer. */
static void fork_with_alarm(void)
{
	struct itimerspec spec = { .it_value = { 300, 0 } };

	set_alarm(100 * (int64_t)BILLION);
	begin();
	fflush(stdout);
	if (!fork()) {
		timerfd_settime(timerfd_create(CLOCK_MONOTONIC, 0), 0, &spec, NULL);
		print("alarm", alarm(0));
		fflush(stdout);
		_exit(0);
	}
	while (wait(NULL) > 0 || errno == EINTR)
		;
	print("alarm", alarm(0));
}

static void count_overruns(void)
{
	struct itimerspec spec = { { 0, 250000000 }, { 0, 250000000 } };
	struct timespec span = { 1, 100000000 };
	timer_t timer;
	sigset_t set;

	sigemptyset(&set);
	sigaddset(&set, SIGALRM);
	sigprocmask(SIG_BLOCK, &set, NULL);
	begin();
	timer_create(CLOCK_REALTIME, NULL, &timer);
	timer_settime(timer, 0, &spec, NULL);
	nanosleep(&span, NULL);
	sigwaitinfo(&set, NULL);
	print("timer_getoverrun", timer_getoverrun(timer));
	timer_delete(timer);
	sigprocmask(SIG_UNBLOCK, &set, NULL);
}

/* A timer of a span isn't one until a time, whatever other flags it has. */
static void set_file_with_flags(void)
{
	struct itimerspec spec = { .it_value = { 2, 0 } };
	int file = timerfd_create(CLOCK_REALTIME, 0);
	uint64_t count = 0;

	begin();
	print("timerfd_settime", timerfd_settime(file, TFD_TIMER_CANCEL_ON_SET, &spec, NULL));
	print("read", read(file, &count, sizeof(count)));
	close(file);
}

/* The second operation fails at once, though the first one would wait. */
static void try_semaphores(void)
{
	struct sembuf operations[] = { { 0, 1, 0 }, { 1, -1, IPC_NOWAIT } };
	int set = semget(IPC_PRIVATE, 2, 0600);
	struct timespec span = { 5, 0 };

	begin();
	print("semtimedop", semtimedop(set, operations, 2, &span));
	semctl(set, 0, IPC_RMID);
}

static void select_micros(void)
{
	struct timeval span = { 1, 2500000 };

	begin();
	print("select", select(0, NULL, NULL, NULL, &span));
	print("rest", span.tv_sec + span.tv_usec);
}

/* A blocked signal comes during a wait with another mask. */
static void wait_with_masks(void)
{
	struct timespec span = { 5, 0 };
	struct epoll_event event;
	sigset_t alarms, none;
	struct {
		const sigset_t *set;
		size_t size;
	} mask = { &none, SET_BYTES };
	int file = epoll_create1(0);

	sigemptyset(&none);
	sigemptyset(&alarms);
	sigaddset(&alarms, SIGALRM);
	sigprocmask(SIG_BLOCK, &alarms, NULL);
	begin();
	set_alarm(BILLION);
	print("ppoll", syscall(SYS_ppoll, NULL, 0, &span, &none, SET_BYTES));
	print("rest", (long)nanos(span) / 500000000);
	span = (struct timespec){ 5, 0 };
	begin();
	set_alarm(BILLION);
	print("pselect6", syscall(SYS_pselect6, 0, NULL, NULL, NULL, &span, &mask));
	begin();
	set_alarm(BILLION);
	print("epoll_pwait", syscall(SYS_epoll_pwait, file, &event, 1, 5000, &none, SET_BYTES));
	span = (struct timespec){ 5, 0 };
	begin();
	set_alarm(BILLION);
	print("epoll_pwait2",
	      syscall(SYS_epoll_pwait2, file, &event, 1, &span, &none, SET_BYTES));
	close(file);
	sigprocmask(SIG_UNBLOCK, &alarms, NULL);
}

/* The size of a set of signals must be that of the kernel, if there is one. */
static void pass_wrong_sizes(void)
{
	struct timespec span = { 0, 0 };
	struct epoll_event event;
	int file = epoll_create1(0);
	struct {
		const sigset_t *set;
		size_t size;
	} mask;
	sigset_t none;

	sigemptyset(&none);
	for (size_t size = 4; size <= 128; size += 124) {
		mask.set = &none;
		mask.size = size;
		begin();
		print("ppoll", syscall(SYS_ppoll, NULL, 0, &span, &none, size));
		print("pselect6", syscall(SYS_pselect6, 0, NULL, NULL, NULL, &span, &mask));
		print("epoll_pwait",
		      syscall(SYS_epoll_pwait, file, &event, 1, 1, &none, size));
		print("epoll_pwait2",
		      syscall(SYS_epoll_pwait2, file, &event, 1, &span, &none, size));
		print("epoll_pwait", syscall(SYS_epoll_pwait, file, &event, 1, 0, NULL, size));
		print("rt_sigtimedwait",
		      syscall(SYS_rt_sigtimedwait, &none, NULL, &span, size));
	}
	close(file);
}

static uint32_t word;

static void *wait_for_second_bit(void *unused)
{
	struct timespec time = after(CLOCK_MONOTONIC, 10 * (int64_t)BILLION);

	syscall(SYS_futex, &word, FUTEX_WAIT_BITSET, 0, &time, NULL, 2);
	return unused;
}

/* A wake with another bit isn't for the waiting thread. */
static void wake_bits(void)
{
	struct timespec span = { 1, 0 };
	pthread_t thread;

	pthread_create(&thread, NULL, wait_for_second_bit, NULL);
	nanosleep(&span, NULL);
	begin();
	print("wake", syscall(SYS_futex, &word, FUTEX_WAKE_BITSET, 1, NULL, NULL, 1));
	print("wake", syscall(SYS_futex, &word, FUTEX_WAKE_BITSET, 1, NULL, NULL, 2));
	pthread_join(thread, NULL);
}

static void make_wrong_calls(void)
{
	static const struct timespec WRONG[] = { { 0, BILLION }, { -1, 0 }, { 0, -1 } };
	mtx_t mutex;
	cnd_t cond;

	mtx_init(&mutex, mtx_timed);
	cnd_init(&cond);
	mtx_lock(&mutex);
	for (int i = 0; i < 3; i++) {
		printf("thrd_sleep %d\n", thrd_sleep(&WRONG[i], NULL));
		printf("mtx_timedlock %d\n", mtx_timedlock(&mutex, &WRONG[i]));
		printf("cnd_timedwait %d\n", cnd_timedwait(&cond, &mutex, &WRONG[i]));
	}
}

/* Waits in slices, if the host's signal can't end the wait. */
static void wait_in_slices(void)
{
	struct timeval span = { 1000, 0 };
	fd_set set;
	int ends[2];

	if (pipe(ends) || dup2(ends[0], WIDE_FILE) < 0)
		return;
	if (!fork()) {
		usleep(350000);
		_exit(write(ends[1], "x", 1) != 1);
	}
	FD_ZERO(&set);
	FD_SET(WIDE_FILE, &set);
	printf("select %d", select(WIDE_FILE + 1, &set, NULL, NULL, &span));
	printf(" %d\n", FD_ISSET(WIDE_FILE, &set));
}

int main(int count, char **arguments)
{
	struct sigaction action = { .sa_handler = on_signal };

	if (count > 1 && !strcmp(arguments[1], "slices")) {
		wait_in_slices();
		return 0;
	}
	sigaction(SIGALRM, &action, NULL);
	interrupt_sleeps();
	replace_alarms();
	fork_with_alarm();
	count_overruns();
	set_file_with_flags();
	try_semaphores();
	select_micros();
	wait_with_masks();
	pass_wrong_sizes();
	wake_bits();
	make_wrong_calls();
	return 0;
}
