/* SPDX-License-Identifier: MIT OR Apache-2.0 */
/* calls_file.c - the calls that wait for files for a span. */
#define _GNU_SOURCE
#include "calls_wait.h"

#include <poll.h>
#include <signal.h>
#include <string.h>
#include <sys/epoll.h>
#include <sys/select.h>

enum {
	WORD_BITS = 8 * sizeof(long),
	FILES_MOST = 1 << 17, /* of select: their copies take 48 KB of the stack */
};

static struct timespec millis_span(int millis)
{
	return (struct timespec){ millis / 1000, millis % 1000 * 1000000L };
}

EXPORT int ppoll(struct pollfd *files, nfds_t count,
		 const struct timespec *span, const sigset_t *mask)
{
	struct timespec slice;
	struct wait wait;
	int ready;

	if (!wait_span(&wait, span))
		return REAL(ppoll)(files, count, span, mask);
	wait_mask(&wait, mask);
	do {
		slice = wait_next(&wait);
		ready = REAL(ppoll)(files, count, &slice, &wait.mask);
	} while (!ready && !wait.is_reached);
	wait_end(&wait);
	return ready;
}

EXPORT int poll(struct pollfd *files, nfds_t count, int millis)
{
	struct timespec span = millis_span(millis);

	if (!machine())
		return REAL(poll)(files, count, millis);
	return ppoll(files, count, millis < 0 ? NULL : &span, NULL);
}

/* Copies the three sets of select, which each slice changes, or copies them back. As
 * for the kernel, a set has whole words, and may have more bits than an fd_set. */
static void copy_sets(fd_set *const sets[3], char *copies, size_t size,
		      bool is_back)
{
	for (int i = 0; i < 3; i++, copies += size) {
		if (sets[i] && is_back)
			memcpy(sets[i], copies, size);
		else if (sets[i])
			memcpy(copies, sets[i], size);
	}
}

static int select_slices(struct wait *wait, int count, fd_set *const sets[3],
			 const sigset_t *mask)
{
	size_t size = ((size_t)count + WORD_BITS - 1) / WORD_BITS * sizeof(long);
	char copies[3 * size + 1];
	struct timespec slice;
	int ready;

	copy_sets(sets, copies, size, false);
	wait_mask(wait, mask);
	for (;;) {
		slice = wait_next(wait);
		ready = REAL(pselect)(count, sets[0], sets[1], sets[2], &slice,
				      &wait->mask);
		if (ready || wait->is_reached)
			return ready;
		copy_sets(sets, copies, size, true);
	}
}

EXPORT int pselect(int count, fd_set *restrict in, fd_set *restrict out,
		   fd_set *restrict other, const struct timespec *restrict span,
		   const sigset_t *restrict mask)
{
	fd_set *const sets[3] = { in, out, other };
	struct wait wait;
	int ready;

	if (count < 0 || count > FILES_MOST || !wait_span(&wait, span))
		return REAL(pselect)(count, in, out, other, span, mask);
	ready = select_slices(&wait, count, sets, mask);
	wait_end(&wait);
	return ready;
}

/* As on Linux, the span becomes what is left of it. */
EXPORT int select(int count, fd_set *restrict in, fd_set *restrict out,
		  fd_set *restrict other, struct timeval *restrict span)
{
	struct timespec wait = { 0 }, until = { 0 };
	struct machine *m = machine();
	bool is_span;
	int ready;

	if (!m)
		return REAL(select)(count, in, out, other, span);
	if (span)
		wait = (struct timespec){ span->tv_sec +
						  span->tv_usec / 1000000,
					  span->tv_usec % 1000000 * 1000 };
	is_span = span && machine_after(m, CLOCK_MONOTONIC, &wait, &until);
	ready = pselect(count, in, out, other, span ? &wait : NULL, NULL);
	if (is_span) {
		wait = machine_until(m, CLOCK_MONOTONIC, &until);
		*span = (struct timeval){ wait.tv_sec, wait.tv_nsec / 1000 };
	}
	return ready;
}

EXPORT int epoll_pwait2(int file, struct epoll_event *events, int most,
			const struct timespec *span, const sigset_t *mask)
{
	struct timespec slice;
	struct wait wait;
	int ready;

	if (!wait_span(&wait, span))
		return REAL(epoll_pwait2)(file, events, most, span, mask);
	wait_mask(&wait, mask);
	do {
		slice = wait_next(&wait);
		ready = REAL(epoll_pwait2)(file, events, most, &slice,
					   &wait.mask);
	} while (!ready && !wait.is_reached);
	wait_end(&wait);
	return ready;
}

/* Linux has epoll_pwait2 only since 5.11. Here slices are whole ms, rounded up. */
static int wait_millis(int file, struct epoll_event *events, int most,
		       const struct timespec *span, const sigset_t *mask)
{
	struct wait wait;
	int ready, slice;

	if (!wait_span(&wait, span))
		return refuse(EINVAL);
	wait_mask(&wait, mask);
	do {
		slice = (int)((wait_slice(&wait) + 999999) / 1000000);
		ready = REAL(epoll_pwait)(file, events, most, slice,
					  &wait.mask);
	} while (!ready && !wait.is_reached);
	wait_end(&wait);
	return ready;
}

EXPORT int epoll_pwait(int file, struct epoll_event *events, int most,
		       int millis, const sigset_t *mask)
{
	struct timespec span = millis_span(millis);
	int ready;

	if (!machine() || millis <= 0)
		return REAL(epoll_pwait)(file, events, most, millis, mask);
	ready = epoll_pwait2(file, events, most, &span, mask);
	if (ready >= 0 || errno != ENOSYS)
		return ready;
	return wait_millis(file, events, most, &span, mask);
}

EXPORT int epoll_wait(int file, struct epoll_event *events, int most,
		      int millis)
{
	return epoll_pwait(file, events, most, millis, NULL);
}
