/* SPDX-License-Identifier: MIT OR Apache-2.0 */
/*
 * Waits while an alarm comes, in many processes at once, and prints the number of waits, how often
 * a handler ran and its wait went on, and how often a wait ended in another wrong way.
 *
 *     alarms        alarms after 0.1 or 0.2 s of the host, at the speed 50
 *     alarms taken  the same with a handler for signal 63
 *     alarms own    the program uses signal 63 for itself
 */
#define _GNU_SOURCE
#include "spans.h"

#include <linux/futex.h>
#include <poll.h>
#include <pthread.h>
#include <semaphore.h>
#include <sys/epoll.h>
#include <sys/mman.h>
#include <sys/select.h>
#include <sys/sem.h>
#include <sys/syscall.h>
#include <sys/time.h>

enum { PROCESSES = 60, ROUNDS = 36, KINDS = 9, OWNERS = 8, OWN = 63, LONG_SEC = 100 };

static struct {
	_Atomic int waits, lost, wrong;
} *counts;
static volatile sig_atomic_t is_inside, came, ran, own;
static volatile long slept;

/* A signal that comes before the thread sleeps in the wait may be none for it. */
static void on_alarm(int number)
{
	(void)number;
	came = is_inside;
	ran = is_inside && sleep_count() > slept;
}

static void on_own(int number)
{
	(void)number;
	own++;
}

/* What the waits are for, and nothing brings. */
static int events, semaphores;
static mqd_t messages;
static sem_t semaphore;

/* Waits by a call that takes a mask, or that the library gives one. Returns the error, or 0 if its
 * time has come. */
static int wait_for_files(int kind)
{
	struct timespec span = { LONG_SEC, 0 };
	struct timeval micros = { LONG_SEC, 0 };
	struct epoll_event event;

	switch (kind) {
	case 0:
		return error_of(epoll_wait(events, &event, 1, LONG_SEC * 1000), 0);
	case 1:
		return error_of(poll(NULL, 0, LONG_SEC * 1000), 0);
	case 2:
		return error_of(ppoll(NULL, 0, &span, NULL), 0);
	default:
		return error_of(select(0, NULL, NULL, NULL, &micros), 0);
	}
}

static int wait_long(int kind)
{
	struct timespec span = { LONG_SEC, 0 };
	struct timespec time = after(CLOCK_REALTIME, LONG_SEC * INT64_C(1000000000));
	struct sembuf take = { 0, -1, 0 };
	static uint32_t word;
	char text[1];
	sigset_t set;

	sigemptyset(&set);
	sigaddset(&set, SIGUSR2);
	switch (kind) {
	case 4:
		return error_of(sem_timedwait(&semaphore, &time), ETIMEDOUT);
	case 5:
		return error_of((int)mq_timedreceive(messages, text, 1, NULL, &time),
				ETIMEDOUT);
	case 6:
		return error_of(sigtimedwait(&set, NULL, &span), EAGAIN);
	case 7:
		return error_of(semtimedop(semaphores, &take, 1, &span), EAGAIN);
	case 8:
		return error_of((int)syscall(SYS_futex, &word, FUTEX_WAIT, 0, &span),
				ETIMEDOUT);
	default:
		return wait_for_files(kind);
	}
}

static void run_round(int round)
{
	struct itimerval alarm = { .it_value = { 5 + 5 * (round % 2), 0 } };
	int error;

	is_inside = came = ran = false;
	setitimer(ITIMER_REAL, &alarm, NULL);
	slept = sleep_count();
	is_inside = true;
	error = wait_long(round % KINDS);
	is_inside = false;
	counts->waits++;
	if (!error)
		counts->lost += ran;
	else
		counts->wrong += error != EINTR || !came;
}

static void run_rounds(void)
{
	events = epoll_create1(0);
	messages = open_queue();
	semaphores = semget(IPC_PRIVATE, 1, 0600);
	sem_init(&semaphore, 0, 0);
	for (int round = 0; round < ROUNDS; round++)
		run_round(round);
	semctl(semaphores, 0, IPC_RMID);
}

/* Waits in slices for a byte that comes after some of them. */
static bool gets_byte(void)
{
	struct timeval span = { LONG_SEC, 0 };
	fd_set set;
	int ends[2];

	if (pipe(ends))
		return false;
	if (!fork()) {
		sleep(6);
		_exit(write(ends[1], "x", 1) != 1);
	}
	FD_ZERO(&set);
	FD_SET(ends[0], &set);
	return select(ends[0] + 1, &set, NULL, NULL, &span) == 1 &&
	       FD_ISSET(ends[0], &set);
}

/* Other threads' waits don't send the program its own signal. */
static void use_own(void)
{
	struct timespec span = { 1, 0 }, time;
	pthread_mutex_t mutex = PTHREAD_MUTEX_INITIALIZER;
	pthread_cond_t cond = PTHREAD_COND_INITIALIZER;

	if (poll(NULL, 0, 1000) || ppoll(NULL, 0, &span, NULL))
		counts->wrong++;
	time = after(CLOCK_REALTIME, BILLION);
	pthread_mutex_lock(&mutex);
	counts->wrong += pthread_cond_timedwait(&cond, &mutex, &time) != ETIMEDOUT;
	counts->wrong += own + !gets_byte();
	raise(OWN);
	counts->wrong += own != 1;
}

int main(int count, char **words)
{
	struct sigaction action = { .sa_handler = on_alarm };
	bool uses_own = count > 1 && !strcmp(words[1], "own");
	int processes = uses_own ? OWNERS : PROCESSES;

	counts = mmap(NULL, sizeof(*counts), PROT_READ | PROT_WRITE,
		      MAP_SHARED | MAP_ANONYMOUS, -1, 0);
	sigaction(SIGALRM, &action, NULL);
	if (count > 1)
		signal(OWN, on_own);
	for (int i = 0; i < processes; i++) {
		if (fork())
			continue;
		if (uses_own)
			use_own();
		else
			run_rounds();
		_exit(0);
	}
	while (wait(NULL) > 0)
		;
	printf("waits %d, lost %d, wrong %d\n", counts->waits, counts->lost,
	       counts->wrong);
	return 0;
}
