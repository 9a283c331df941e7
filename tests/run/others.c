/* SPDX-License-Identifier: MIT OR Apache-2.0 */
/*
 * Makes timed waits by the C library's other names, for a file with a great number, and
 * on a kernel that seems to be older than Linux 5.11 and 5.14.
 */
#define _GNU_SOURCE
#include "timed.h"

#include <errno.h>
#include <linux/filter.h>
#include <linux/futex.h>
#include <linux/seccomp.h>
#include <poll.h>
#include <pthread.h>
#include <sched.h>
#include <sys/epoll.h>
#include <sys/prctl.h>
#include <sys/resource.h>
#include <sys/select.h>
#include <sys/syscall.h>

#ifndef FUTEX_LOCK_PI2
#define FUTEX_LOCK_PI2 13
#endif

enum { WIDE = FD_SETSIZE + 500 };

int __nanosleep(const struct timespec *span, struct timespec *rest);
int __poll(struct pollfd *files, nfds_t count, int millis);
int __poll_chk(struct pollfd *files, nfds_t count, int millis, size_t bytes);
int __ppoll_chk(struct pollfd *files, nfds_t count, const struct timespec *span,
		const sigset_t *mask, size_t bytes);
int __select(int count, fd_set *in, fd_set *out, fd_set *other,
	     struct timeval *span);

static bool by_nanosleep(void)
{
	return !__nanosleep(&SPAN, NULL);
}

static bool by_poll(void)
{
	return !__poll(NULL, 0, 2000);
}

static bool by_select(void)
{
	struct timeval span = { 2, 0 };

	return !__select(0, NULL, NULL, NULL, &span);
}

static bool by_poll_chk(void)
{
	struct pollfd file = { -1, 0, 0 };

	return !__poll_chk(&file, 1, 2000, sizeof(file));
}

static bool by_ppoll_chk(void)
{
	struct pollfd file = { -1, 0, 0 };

	return !__ppoll_chk(&file, 1, &SPAN, NULL, sizeof(file));
}

static void *write_later(void *file)
{
	sleep(2);
	if (write(*(int *)file, "x", 1) != 1)
		perror("others");
	return NULL;
}

/* Selects a file whose number no fd_set has, until it can be read after two seconds. */
static bool by_wide_select(void)
{
	struct timeval span = { 10, 0 };
	struct rlimit files;
	pthread_t thread;
	fd_set sets[2];
	int ends[2];

	getrlimit(RLIMIT_NOFILE, &files);
	files.rlim_cur = files.rlim_max;
	setrlimit(RLIMIT_NOFILE, &files);
	memset(sets, 0, sizeof(sets));
	if (pipe(ends) || dup2(ends[0], WIDE) != WIDE)
		return false;
	FD_SET(WIDE % FD_SETSIZE, &sets[1]);
	pthread_create(&thread, NULL, write_later, &ends[1]);
	return select(WIDE + 1, sets, NULL, NULL, &span) == 1 &&
	       FD_ISSET(WIDE % FD_SETSIZE, &sets[1]) &&
	       !pthread_join(thread, NULL);
}

/* From now on the calls epoll_pwait2 and FUTEX_LOCK_PI2 fail with ENOSYS. */
static bool make_old(void)
{
	struct sock_filter code[] = {
		BPF_STMT(BPF_LD | BPF_W | BPF_ABS,
			 offsetof(struct seccomp_data, nr)),
		BPF_JUMP(BPF_JMP | BPF_JEQ | BPF_K, SYS_epoll_pwait2, 4, 0),
		BPF_JUMP(BPF_JMP | BPF_JEQ | BPF_K, SYS_futex, 0, 4),
		BPF_STMT(BPF_LD | BPF_W | BPF_ABS,
			 offsetof(struct seccomp_data, args[1])),
		BPF_STMT(BPF_ALU | BPF_AND | BPF_K, FUTEX_CMD_MASK),
		BPF_JUMP(BPF_JMP | BPF_JEQ | BPF_K, FUTEX_LOCK_PI2, 0, 1),
		BPF_STMT(BPF_RET | BPF_K, SECCOMP_RET_ERRNO | ENOSYS),
		BPF_STMT(BPF_RET | BPF_K, SECCOMP_RET_ALLOW),
	};
	struct sock_fprog program = { sizeof(code) / sizeof(*code), code };

	return !prctl(PR_SET_NO_NEW_PRIVS, 1, 0, 0, 0) &&
	       !prctl(PR_SET_SECCOMP, SECCOMP_MODE_FILTER, &program);
}

static bool by_old_epoll(void)
{
	struct epoll_event event;
	int file = epoll_create1(0);

	return make_old() && epoll_pwait2(file, &event, 1, &SPAN, NULL) < 0 &&
	       errno == ENOSYS && !epoll_wait(file, &event, 1, 2000);
}

static uint32_t taken;

static void *take_lock(void *unused)
{
	syscall(SYS_futex, &taken, FUTEX_LOCK_PI, 0, NULL, NULL, 0);
	pause();
	return unused;
}

static bool by_old_lock_pi(void)
{
	struct timespec time;
	pthread_t thread;

	pthread_create(&thread, NULL, take_lock, NULL);
	while (!__atomic_load_n(&taken, __ATOMIC_SEQ_CST))
		sched_yield();
	time = until(CLOCK_REALTIME);
	return syscall(SYS_futex, &taken, FUTEX_LOCK_PI, 0, &time, NULL, 0) <
		       0 &&
	       errno == ETIMEDOUT;
}

static const struct timed_wait WAITS[] = {
	{ "nanosleep", by_nanosleep },	 { "poll", by_poll },
	{ "select", by_select },	 { "poll_chk", by_poll_chk },
	{ "ppoll_chk", by_ppoll_chk },	 { "wide_select", by_wide_select },
	{ "old_epoll", by_old_epoll },	 { "old_lock_pi", by_old_lock_pi },
};

int main(int count, char **words)
{
	make_waits(WAITS, sizeof(WAITS) / sizeof(*WAITS),
		   count > 1 ? words[1] : NULL);
	return 0;
}
