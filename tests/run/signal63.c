/* SPDX-License-Identifier: MIT OR Apache-2.0 */
/*
 * Uses signal 63, by which tkrun ends waits, for itself: each line is a wait of a process to which
 * another one sends the signal in the middle of it. On the host's clocks it prints the same.
 */
#define _GNU_SOURCE
#include "spans.h"

#include <poll.h>
#include <pthread.h>
#include <semaphore.h>
#include <sys/signalfd.h>
#include <sys/syscall.h>

enum { OWN = 63, VALUE = 77, WAIT_MILLIS = 1500, SENT_MILLIS = 500 };

static volatile sig_atomic_t ran, value, code, is_parents, usr1_is_blocked, own_is_blocked;

static void on_own(int number, siginfo_t *info, void *context)
{
	sigset_t set;

	(void)number;
	(void)context;
	ran++;
	value = info->si_value.sival_int;
	code = info->si_code;
	is_parents = info->si_pid != getpid();
	sigprocmask(SIG_SETMASK, NULL, &set);
	usr1_is_blocked = sigismember(&set, SIGUSR1);
	own_is_blocked = sigismember(&set, OWN);
}

static void on_other(int number)
{
	(void)number;
	ran += 100;
}

static void handle(int flags)
{
	struct sigaction action = { .sa_sigaction = on_own,
				    .sa_flags = SA_SIGINFO | flags };

	sigaddset(&action.sa_mask, SIGUSR1);
	sigaction(OWN, &action, NULL);
}

/* Sends this process the signal, in the middle of a wait. */
static void send_in_wait(void)
{
	struct timespec span = span_of(SENT_MILLIS * (int64_t)MILLION);
	union sigval sent = { .sival_int = VALUE };
	pid_t own = getpid();

	if (fork())
		return;
	nanosleep(&span, NULL);
	sigqueue(own, OWN, sent);
	_exit(0);
}

static void block(int how)
{
	sigset_t set;

	sigemptyset(&set);
	sigaddset(&set, OWN);
	sigprocmask(how, &set, NULL);
}

static bool is_pending(void)
{
	sigset_t set;

	sigpending(&set);
	return sigismember(&set, OWN);
}

static const char *name_of(int error)
{
	return error ? strerrorname_np(error) : "0";
}

static void by_poll(void)
{
	send_in_wait();
	printf("poll %s", name_of(error_of(poll(NULL, 0, WAIT_MILLIS), 0)));
}

static void by_masked_poll(void)
{
	struct timespec span = span_of(WAIT_MILLIS * (int64_t)MILLION);
	sigset_t none;

	sigemptyset(&none);
	block(SIG_BLOCK);
	send_in_wait();
	printf("ppoll %s", name_of(error_of(ppoll(NULL, 0, &span, &none), 0)));
}

static void by_semaphore(void)
{
	struct timespec time;
	sem_t semaphore;

	sem_init(&semaphore, 0, 0);
	send_in_wait();
	time = after(CLOCK_REALTIME, WAIT_MILLIS * (int64_t)MILLION);
	printf("sem %s", name_of(error_of(sem_timedwait(&semaphore, &time),
					  ETIMEDOUT)));
}

static void by_condition(void)
{
	pthread_mutex_t mutex = PTHREAD_MUTEX_INITIALIZER;
	pthread_cond_t cond = PTHREAD_COND_INITIALIZER;
	struct timespec time;

	pthread_mutex_lock(&mutex);
	send_in_wait();
	time = after(CLOCK_REALTIME, WAIT_MILLIS * (int64_t)MILLION);
	printf("cond %s", name_of(pthread_cond_timedwait(&cond, &mutex, &time)));
}

/* The signal comes while the process reads, and a byte after that. */
static void by_read(void)
{
	struct timespec span = span_of(WAIT_MILLIS * (int64_t)MILLION);
	int ends[2];
	char byte;

	if (pipe(ends))
		perror("pipe");
	send_in_wait();
	if (!fork()) {
		nanosleep(&span, NULL);
		_exit(write(ends[1], "x", 1) != 1);
	}
	printf("read %s", read(ends[0], &byte, 1) == 1 ? "1" : name_of(errno));
}

static void by_signalfd(void)
{
	struct signalfd_siginfo info = { 0 };
	struct pollfd file = { .events = POLLIN };
	sigset_t set;

	sigemptyset(&set);
	sigaddset(&set, OWN);
	block(SIG_BLOCK);
	file.fd = signalfd(-1, &set, 0);
	send_in_wait();
	printf("signalfd %d", poll(&file, 1, WAIT_MILLIS));
	if (read(file.fd, &info, sizeof(info)) == sizeof(info))
		printf(" %u %d", info.ssi_signo, info.ssi_int);
}

static void by_sigtimedwait(void)
{
	struct timespec span = span_of(WAIT_MILLIS * (int64_t)MILLION);
	siginfo_t info = { 0 };
	sigset_t set;

	sigemptyset(&set);
	sigaddset(&set, OWN);
	block(SIG_BLOCK);
	send_in_wait();
	printf("sigtimedwait %d", sigtimedwait(&set, &info, &span));
	printf(" %d", info.si_value.sival_int);
	printf(" %d", sigtimedwait(&set, &info, &span));
}

static void by_blocked_semaphore(void)
{
	block(SIG_BLOCK);
	by_semaphore();
	printf(" pending %d, ran %d", is_pending(), ran);
	block(SIG_UNBLOCK);
}

static void by_blocked_poll(void)
{
	block(SIG_BLOCK);
	by_poll();
	printf(" pending %d, ran %d", is_pending(), ran);
	block(SIG_UNBLOCK);
}

/* The second signal ends the process. */
static void by_reset(void)
{
	struct sigaction action;

	handle(SA_RESETHAND);
	by_poll();
	sigaction(OWN, NULL, &action);
	printf(" %d", action.sa_handler == SIG_DFL);
	fflush(stdout);
	by_poll();
}

static void by_default(void)
{
	signal(OWN, SIG_DFL);
	fflush(stdout);
	by_poll();
}

static void by_ignoring(void)
{
	signal(OWN, SIG_IGN);
	by_poll();
}

/* The functions return what was set before. */
static void by_setting(void)
{
	struct sigaction action = { .sa_handler = on_other }, before;

	sigaction(OWN, &action, &before);
	printf("setting %d %d %d", before.sa_sigaction == on_own,
	       !!(before.sa_flags & SA_SIGINFO),
	       sigismember(&before.sa_mask, SIGUSR1));
	printf(" %d", signal(OWN, SIG_IGN) == on_other);
	printf(" %d", signal(OWN, on_other) == SIG_IGN);
	sigaction(OWN, NULL, &before);
	printf(" %d %d", sigismember(&before.sa_mask, OWN), !!(before.sa_flags & SA_RESTART));
	raise(OWN);
}

static const struct {
	void (*make)(void);
	int flags;
} CASES[] = {
	{ by_poll, 0 },
	{ by_poll, SA_RESTART },
	{ by_poll, SA_NODEFER },
	{ by_masked_poll, 0 },
	{ by_semaphore, 0 },
	{ by_semaphore, SA_RESTART },
	{ by_condition, 0 },
	{ by_read, 0 },
	{ by_read, SA_RESTART },
	{ by_signalfd, 0 },
	{ by_sigtimedwait, 0 },
	{ by_blocked_semaphore, 0 },
	{ by_blocked_poll, 0 },
	{ by_reset, 0 },
	{ by_default, 0 },
	{ by_ignoring, 0 },
	{ by_setting, 0 },
};

int main(void)
{
	int status;

	for (size_t i = 0; i < sizeof(CASES) / sizeof(*CASES); i++) {
		pid_t child = fork();

		if (!child) {
			handle(CASES[i].flags);
			CASES[i].make();
			printf(" ran %d value %d code %d other's %d blocked %d %d",
			       ran, value, code, is_parents, usr1_is_blocked,
			       own_is_blocked);
			fflush(stdout);
			_exit(0);
		}
		waitpid(child, &status, 0);
		printf(" status %d\n", WIFSIGNALED(status) ? 128 + WTERMSIG(status)
							  : WEXITSTATUS(status));
		fflush(stdout);
	}
	return 0;
}
