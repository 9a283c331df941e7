/* SPDX-License-Identifier: MIT OR Apache-2.0 */
/* calls_system_wait.c - waits that a program makes by syscall(2). */
#define _GNU_SOURCE
#include "calls_system.h"

#include <mqueue.h>
#include <poll.h>
#include <signal.h>
#include <sys/epoll.h>
#include <sys/select.h>
#include <sys/sem.h>
#include <sys/syscall.h>
#include <unistd.h>

enum { SET_BYTES = 8 }; /* a set of signals, for the kernel */

MAKE(nanosleep, (const struct timespec *)a[0], (struct timespec *)a[1])

/* The C library's call returns the error. */
long make_clock_nanosleep(const long *a)
{
	return result_of(-clock_nanosleep((clockid_t)a[0], (int)a[1],
					  (const struct timespec *)a[2],
					  (struct timespec *)a[3]));
}

/* A span that the system call shortens to what is left of it. */
struct span {
	struct timespec *span, until;
	bool is_limit;
};

static struct span span_begin(struct machine *m, long address)
{
	struct span span = { .span = (struct timespec *)address };

	span.is_limit = span.span && machine_after(m, CLOCK_MONOTONIC, span.span,
						&span.until);
	return span;
}

static void span_end(struct machine *m, struct span *span)
{
	if (span->is_limit)
		*span->span = machine_until(m, CLOCK_MONOTONIC, &span->until);
}

/* Returns whether the size of a mask isn't the kernel's. None has a size. */
static bool is_bad_mask(const void *mask, long size)
{
	return mask && size != SET_BYTES;
}

MAKE(poll, (struct pollfd *)a[0], (nfds_t)a[1], (int)a[2])

long make_ppoll(const long *a)
{
	struct machine *m = machine();
	struct span span = span_begin(m, a[2]);
	long result;

	if (is_bad_mask((const void *)a[3], a[4]))
		return refuse(EINVAL);
	result = ppoll((struct pollfd *)a[0], (nfds_t)a[1], span.span,
		       (const sigset_t *)a[3]);
	span_end(m, &span);
	return result;
}

MAKE(select, (int)a[0], (fd_set *)a[1], (fd_set *)a[2], (fd_set *)a[3], (struct timeval *)a[4])

long make_pselect6(const long *a)
{
	const struct {
		const sigset_t *set;
		size_t size;
	} *mask = (const void *)a[5];
	struct machine *m = machine();
	struct span span = span_begin(m, a[4]);
	long result;

	if (mask && is_bad_mask(mask->set, (long)mask->size))
		return refuse(EINVAL);
	result = pselect((int)a[0], (fd_set *)a[1], (fd_set *)a[2],
			 (fd_set *)a[3], span.span, mask ? mask->set : NULL);
	span_end(m, &span);
	return result;
}

MAKE(epoll_wait, (int)a[0], (struct epoll_event *)a[1], (int)a[2], (int)a[3])

long make_epoll_pwait(const long *a)
{
	if (is_bad_mask((const void *)a[4], a[5]))
		return refuse(EINVAL);
	return epoll_pwait((int)a[0], (struct epoll_event *)a[1], (int)a[2],
			   (int)a[3], (const sigset_t *)a[4]);
}

long make_epoll_pwait2(const long *a)
{
	if (is_bad_mask((const void *)a[4], a[5]))
		return refuse(EINVAL);
	return epoll_pwait2((int)a[0], (struct epoll_event *)a[1], (int)a[2],
			    (const struct timespec *)a[3],
			    (const sigset_t *)a[4]);
}

/* The kernel refuses another size of the set. */
long make_rt_sigtimedwait(const long *a)
{
	if (a[3] != SET_BYTES)
		return make_host(SYS_rt_sigtimedwait, a);
	return sigtimedwait((const sigset_t *)a[0], (siginfo_t *)a[1],
			    (const struct timespec *)a[2]);
}

MAKE(mq_timedreceive, (mqd_t)a[0], (char *)a[1], (size_t)a[2], (unsigned int *)a[3],
     (const struct timespec *)a[4])
MAKE(mq_timedsend, (mqd_t)a[0], (const char *)a[1], (size_t)a[2], (unsigned int)a[3],
     (const struct timespec *)a[4])
MAKE(semtimedop, (int)a[0], (struct sembuf *)a[1], (size_t)a[2], (const struct timespec *)a[3])
