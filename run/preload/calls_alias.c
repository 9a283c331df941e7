/* SPDX-License-Identifier: MIT OR Apache-2.0 */
/*
 * calls_alias.c - the C library's other names of calls: those with two underscores, and those of a
 * program that was compiled with _FORTIFY_SOURCE, which also state the array's bytes.
 */
#define _GNU_SOURCE
#include "calls.h"

#include <poll.h>
#include <stdlib.h>
#include <sys/select.h>

/* gcc's ASan asks for it, and otherwise ends a program whose first library is another one. Calls
 * that both answer go to this library first, and then to ASan's. */
EXPORT const char *__asan_default_options(void)
{
	return "verify_asan_link_order=0";
}

/* A C library other than glibc may lack it. */
extern void __chk_fail(void) __attribute__((weak));

static void end_at_overflow(void)
{
	if (__chk_fail)
		__chk_fail();
	abort();
}

EXPORT int __clock_gettime(clockid_t clock, struct timespec *out)
{
	return clock_gettime(clock, out);
}

EXPORT int __gettimeofday(struct timeval *restrict out, void *restrict zone)
{
	return gettimeofday(out, zone);
}

EXPORT int __nanosleep(const struct timespec *span, struct timespec *rest)
{
	return nanosleep(span, rest);
}

EXPORT int __select(int count, fd_set *restrict in, fd_set *restrict out,
		    fd_set *restrict other, struct timeval *restrict span)
{
	return select(count, in, out, other, span);
}

EXPORT int __poll(struct pollfd *files, nfds_t count, int millis)
{
	return poll(files, count, millis);
}

EXPORT int __poll_chk(struct pollfd *files, nfds_t count, int millis,
		      size_t bytes)
{
	if (bytes / sizeof(*files) < count)
		end_at_overflow();
	return poll(files, count, millis);
}

EXPORT int __ppoll_chk(struct pollfd *files, nfds_t count,
		       const struct timespec *span, const sigset_t *mask,
		       size_t bytes)
{
	if (bytes / sizeof(*files) < count)
		end_at_overflow();
	return ppoll(files, count, span, mask);
}
