/* SPDX-License-Identifier: MIT OR Apache-2.0 */
/* calls_system.h - system calls that a program makes by syscall(2). */
#ifndef CALLS_SYSTEM_H
#define CALLS_SYSTEM_H

#include "calls.h"

/* Makes a system call with its six arguments. Returns what syscall(2) returns. */
typedef long system_call(const long *a);

/* Defines a call that is the C library's of the same name, with these of the arguments. */
#define MAKE(name, ...)               \
	long make_##name(const long *a) \
	{                               \
		return name(__VA_ARGS__); \
	}

/* Returns a system call's result as syscall(2) does: -1 with errno for an
 * error. */
long result_of(long result);

/* Makes a system call that is the host's. */
long make_host(long number, const long *a);

/* The calls of other files that the table of calls_system.c lists. */
system_call make_nanosleep, make_clock_nanosleep, make_poll, make_ppoll,
	make_select, make_pselect6, make_epoll_wait, make_epoll_pwait,
	make_epoll_pwait2, make_rt_sigtimedwait, make_mq_timedreceive,
	make_mq_timedsend, make_semtimedop, make_futex, make_futex_waitv,
	make_capget, make_capset, make_prctl, make_utimensat;

#endif
