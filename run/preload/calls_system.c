/* SPDX-License-Identifier: MIT OR Apache-2.0 */
/* calls_system.c - system calls that a program makes by syscall(2). */
#define _GNU_SOURCE
#include "calls_system.h"

#include "timers.h"

#include <stdarg.h>
#include <sys/socket.h>
#include <sys/stat.h>
#include <sys/syscall.h>
#include <sys/time.h>
#include <sys/timerfd.h>
#include <sys/timex.h>
#include <unistd.h>
#include <utime.h>

long result_of(long result)
{
	return result < 0 && result > -4096 ? refuse((int)-result) : result;
}

long make_host(long number, const long *a)
{
	return result_of(host_call(number, a[0], a[1], a[2], a[3], a[4], a[5]));
}

/* Calls that read a clock. */
MAKE(clock_gettime, (clockid_t)a[0], (struct timespec *)a[1])
MAKE(clock_getres, (clockid_t)a[0], (struct timespec *)a[1])
MAKE(gettimeofday, (struct timeval *)a[0], (void *)a[1])
MAKE(time, (time_t *)a[0])

/* Calls that set or steer a clock. */
MAKE(clock_settime, (clockid_t)a[0], (const struct timespec *)a[1])
MAKE(set_micros, (const struct timeval *)a[0], (const struct timezone *)a[1])
MAKE(adjtimex, (struct timex *)a[0])
MAKE(clock_adjtime, (clockid_t)a[0], (struct timex *)a[1])

/* Packets, which may have stamps. */
MAKE(setsockopt, (int)a[0], (int)a[1], (int)a[2], (const void *)a[3], (socklen_t)a[4])
MAKE(recvmsg, (int)a[0], (struct msghdr *)a[1], (int)a[2])
MAKE(recvmmsg, (int)a[0], (struct mmsghdr *)a[1], (unsigned int)a[2], (int)a[3],
     (struct timespec *)a[4])

/* The times of files. */
MAKE(stat, (const char *)a[0], (struct stat *)a[1])
MAKE(lstat, (const char *)a[0], (struct stat *)a[1])
MAKE(fstat, (int)a[0], (struct stat *)a[1])
MAKE(fstatat, (int)a[0], (const char *)a[1], (struct stat *)a[2], (int)a[3])
MAKE(statx, (int)a[0], (const char *)a[1], (int)a[2], (unsigned int)a[3], (struct statx *)a[4])
MAKE(utime, (const char *)a[0], (const struct utimbuf *)a[1])
MAKE(utimes, (const char *)a[0], (const struct timeval *)a[1])
MAKE(futimesat, (int)a[0], (const char *)a[1], (const struct timeval *)a[2])

/* The alarm, and timers that are files. */
MAKE(alarm, (unsigned int)a[0])
MAKE(setitimer, (__itimer_which_t)a[0], (const struct itimerval *)a[1], (struct itimerval *)a[2])
MAKE(getitimer, (__itimer_which_t)a[0], (struct itimerval *)a[1])
MAKE(timerfd_create, (int)a[0], (int)a[1])
MAKE(timerfd_settime, (int)a[0], (int)a[1], (const struct itimerspec *)a[2],
     (struct itimerspec *)a[3])
MAKE(timerfd_gettime, (int)a[0], (struct itimerspec *)a[1])

/* Timers with a number. */
MAKE(create_kernel_timer, (clockid_t)a[0], (struct sigevent *)a[1], (int *)a[2])
MAKE(timer_settime, kernel_timer((int)a[0]), (int)a[1], (const struct itimerspec *)a[2],
     (struct itimerspec *)a[3])
MAKE(timer_gettime, kernel_timer((int)a[0]), (struct itimerspec *)a[1])
MAKE(timer_delete, kernel_timer((int)a[0]))

/* Waits that go by the host's time, of which tkrun warns. */

static long note_asynchronous(long number, const long *a)
{
	note_host(machine(), HOST_ASYNCHRONOUS);
	return make_host(number, a);
}

static long make_io_uring_setup(const long *a)
{
	return note_asynchronous(SYS_io_uring_setup, a);
}

static long make_io_getevents(const long *a)
{
	return note_asynchronous(SYS_io_getevents, a);
}

static long make_io_pgetevents(const long *a)
{
	return note_asynchronous(SYS_io_pgetevents, a);
}

#define CALL(name) [SYS_##name] = make_##name

/* Each call that isn't the host's, by its number. */
static system_call *const CALLS[] = {
	CALL(clock_gettime),
	CALL(clock_getres),
	CALL(gettimeofday),
	CALL(time),
	CALL(clock_settime),
	[SYS_settimeofday] = make_set_micros,
	CALL(adjtimex),
	CALL(clock_adjtime),
	CALL(nanosleep),
	CALL(clock_nanosleep),
	CALL(poll),
	CALL(ppoll),
	CALL(select),
	CALL(pselect6),
	CALL(epoll_wait),
	CALL(epoll_pwait),
	CALL(epoll_pwait2),
	CALL(rt_sigtimedwait),
	CALL(mq_timedreceive),
	CALL(mq_timedsend),
	CALL(semtimedop),
	CALL(futex),
	CALL(futex_waitv),
	CALL(capget),
	CALL(capset),
	CALL(prctl),
	CALL(setsockopt),
	CALL(recvmsg),
	CALL(recvmmsg),
	CALL(stat),
	CALL(lstat),
	CALL(fstat),
	[SYS_newfstatat] = make_fstatat,
	CALL(statx),
	CALL(utime),
	CALL(utimes),
	CALL(futimesat),
	CALL(utimensat),
	CALL(io_uring_setup),
	CALL(io_getevents),
	CALL(io_pgetevents),
	CALL(alarm),
	CALL(setitimer),
	CALL(getitimer),
	CALL(timerfd_create),
	CALL(timerfd_settime),
	CALL(timerfd_gettime),
	[SYS_timer_create] = make_create_kernel_timer,
	CALL(timer_settime),
	CALL(timer_gettime),
	CALL(timer_delete),
};

EXPORT long syscall(long number, ...)
{
	bool is_listed = number >= 0 &&
			 number < (long)(sizeof(CALLS) / sizeof(*CALLS)) &&
			 CALLS[number];
	va_list list;
	long a[6];

	va_start(list, number);
	for (int i = 0; i < 6; i++)
		a[i] = va_arg(list, long);
	va_end(list);
	return is_listed && machine() ? CALLS[number](a) : make_host(number, a);
}
