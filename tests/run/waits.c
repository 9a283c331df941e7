/* SPDX-License-Identifier: MIT OR Apache-2.0 */
/* Makes each wait of the C library that libtkrun.so answers for a time only, for files, and for the
 * messages and semaphores of processes. */
#define _GNU_SOURCE
#include "timed.h"

#include <errno.h>
#include <linux/futex.h>
#include <poll.h>
#include <signal.h>
#include <stdint.h>
#include <sys/epoll.h>
#include <sys/select.h>
#include <sys/sem.h>
#include <sys/syscall.h>
#include <sys/time.h>
#include <threads.h>
#include <unistd.h>

static bool by_nanosleep(void)
{
	return !nanosleep(&SPAN, NULL);
}

static bool by_clock_nanosleep(void)
{
	return !clock_nanosleep(CLOCK_BOOTTIME, 0, &SPAN, NULL);
}

static bool by_absolute_sleep(void)
{
	struct timespec time = until(CLOCK_TAI);

	return !clock_nanosleep(CLOCK_TAI, TIMER_ABSTIME, &time, NULL);
}

static bool by_usleep(void)
{
	return !usleep(2000000);
}

static bool by_sleep(void)
{
	return !sleep(2);
}

static bool by_thrd_sleep(void)
{
	return !thrd_sleep(&SPAN, NULL);
}

static bool by_poll(void)
{
	return !poll(NULL, 0, 2000);
}

static bool by_ppoll(void)
{
	return !ppoll(NULL, 0, &SPAN, NULL);
}

static bool by_select(void)
{
	struct timeval span = { 2, 0 };

	return !select(0, NULL, NULL, NULL, &span) && !span.tv_sec &&
	       !span.tv_usec;
}

static bool by_pselect(void)
{
	fd_set set;
	int ends[2];

	if (pipe(ends))
		return false;
	FD_ZERO(&set);
	FD_SET(ends[0], &set);
	return !pselect(ends[0] + 1, &set, NULL, NULL, &SPAN, NULL) &&
	       !FD_ISSET(ends[0], &set);
}

static bool by_epoll_wait(void)
{
	struct epoll_event event;

	return !epoll_wait(epoll_create1(0), &event, 1, 2000);
}

static bool by_epoll_pwait(void)
{
	struct epoll_event event;

	return !epoll_pwait(epoll_create1(0), &event, 1, 2000, NULL);
}

static bool by_epoll_pwait2(void)
{
	struct epoll_event event;

	return !epoll_pwait2(epoll_create1(0), &event, 1, &SPAN, NULL);
}

static bool by_sigtimedwait(void)
{
	sigset_t set;

	sigemptyset(&set);
	sigaddset(&set, SIGUSR2);
	return sigtimedwait(&set, NULL, &SPAN) < 0 && errno == EAGAIN;
}

static bool by_semtimedop(void)
{
	int set = semget(IPC_PRIVATE, 1, 0600);
	struct sembuf take = { 0, -1, 0 };
	bool is_over = semtimedop(set, &take, 1, &SPAN) < 0 &&
		       errno == EAGAIN;

	return !semctl(set, 0, IPC_RMID) && is_over;
}

static bool by_mq_timedreceive(void)
{
	struct timespec time = until(CLOCK_REALTIME);
	char text[1];

	return mq_timedreceive(open_queue(), text, 1, NULL, &time) < 0 &&
	       errno == ETIMEDOUT;
}

static bool by_mq_timedsend(void)
{
	struct timespec time = until(CLOCK_REALTIME);
	mqd_t queue = open_queue();

	mq_send(queue, "a", 1, 0);
	return mq_timedsend(queue, "b", 1, 0, &time) < 0 && errno == ETIMEDOUT;
}

static bool by_futex(void)
{
	uint32_t word = 0;

	return syscall(SYS_futex, &word, FUTEX_WAIT_PRIVATE, 0, &SPAN, NULL,
		       0) < 0 &&
	       errno == ETIMEDOUT;
}

static bool by_futex_bitset(void)
{
	struct timespec time = until(CLOCK_REALTIME);
	uint32_t word = 0;

	return syscall(SYS_futex, &word,
		       FUTEX_WAIT_BITSET | FUTEX_CLOCK_REALTIME, 0, &time, NULL,
		       FUTEX_BITSET_MATCH_ANY) < 0 &&
	       errno == ETIMEDOUT;
}

static bool by_system_sleep(void)
{
	return !syscall(SYS_nanosleep, &SPAN, NULL);
}

static const struct timed_wait WAITS[] = {
	{ "nanosleep", by_nanosleep },
	{ "clock_nanosleep", by_clock_nanosleep },
	{ "absolute_sleep", by_absolute_sleep },
	{ "usleep", by_usleep },
	{ "sleep", by_sleep },
	{ "thrd_sleep", by_thrd_sleep },
	{ "poll", by_poll },
	{ "ppoll", by_ppoll },
	{ "select", by_select },
	{ "pselect", by_pselect },
	{ "epoll_wait", by_epoll_wait },
	{ "epoll_pwait", by_epoll_pwait },
	{ "epoll_pwait2", by_epoll_pwait2 },
	{ "sigtimedwait", by_sigtimedwait },
	{ "semtimedop", by_semtimedop },
	{ "mq_timedreceive", by_mq_timedreceive },
	{ "mq_timedsend", by_mq_timedsend },
	{ "futex", by_futex },
	{ "futex_bitset", by_futex_bitset },
	{ "system_sleep", by_system_sleep },
};

int main(int count, char **words)
{
	make_waits(WAITS, sizeof(WAITS) / sizeof(*WAITS),
		   count > 1 ? words[1] : NULL);
	return 0;
}
