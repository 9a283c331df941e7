/* SPDX-License-Identifier: MIT OR Apache-2.0 */
/*
 * calls_poll.c - the calls that wait for one of several files. A thread that waits is woken by the
 * first file that is ready, and more may be ready when it has the turn. So it looks again then.
 *
 * A connection of TCP that is full by our count isn't writable, whatever the kernel says. A thread
 * that waits for it looks when tkrun lets it, as a writer does (table.h).
 */
#define _GNU_SOURCE
#include "files.h"
#include "full.h"
#include "clocks/host.h"

#include <poll.h>
#include <string.h>
#include <sys/select.h>
#include <sys/syscall.h>

enum { FILES_MOST = 256 };

/* Returns how many files are ready at the turn. If another thread has taken all that was there,
 * they are those that were. */
static int poll_again(struct pollfd *files, nfds_t count, int found, const void *caller)
{
	struct pollfd before[FILES_MOST];
	long again;

	if (!turn_need(caller) || found <= 0 || count > FILES_MOST)
		return found;
	memcpy(before, files, count * sizeof(*files));
	again = host_call(SYS_poll, (long)files, (long)count, 0, 0, 0, 0);
	if (again > 0)
		return (int)again;
	memcpy(files, before, count * sizeof(*files));
	return found;
}

/* Files of which some are full. */
struct polled {
	struct pollfd *files;
	nfds_t count;
	int found;
};

/* Returns whether a connection is full that should be written. */
static bool has_full(const struct pollfd *files, nfds_t count)
{
	for (nfds_t i = 0; i < count; i++) {
		if (files[i].events & POLLOUT && file_is_full(files[i].fd))
			return true;
	}
	return false;
}

/* Looks at the files, without those that are full. */
static bool look_at_files(void *what)
{
	struct polled *polled = what;
	struct pollfd files[FILES_MOST];
	long found;

	memcpy(files, polled->files, polled->count * sizeof(*files));
	for (nfds_t i = 0; i < polled->count; i++) {
		if (files[i].events & POLLOUT && file_is_full(files[i].fd))
			files[i].events &= (short)~(POLLOUT | POLLWRNORM | POLLWRBAND);
	}
	found = host_call(SYS_poll, (long)files, (long)polled->count, 0, 0, 0, 0);
	for (nfds_t i = 0; i < polled->count; i++)
		polled->files[i].revents = files[i].revents;
	polled->found = (int)found;
	return found;
}

/* Waits for files of which some are full. */
static int poll_full(struct pollfd *files, nfds_t count, const struct timespec *span,
		     const sigset_t *mask, const void *caller)
{
	struct polled polled = { files, count, 0 };
	int result = full_wait(look_at_files, &polled, span, mask, caller);

	return full_result(result, polled.found);
}

static bool is_full_poll(struct pollfd *files, nfds_t count, const void *caller)
{
	if (!turn_is_own(caller) || !files || count > FILES_MOST)
		return false;
	turn_have(caller);
	return has_full(files, count);
}

static int poll_millis(struct pollfd *files, nfds_t count, int millis, const void *caller)
{
	struct timespec span = { millis / 1000, millis % 1000 * 1000000 };

	return poll_full(files, count, millis < 0 ? NULL : &span, NULL, caller);
}

EXPORT int poll(struct pollfd *files, nfds_t count, int millis)
{
	if (is_full_poll(files, count, CALLER))
		return poll_millis(files, count, millis, CALLER);
	return poll_again(files, count, REAL(poll)(files, count, millis), CALLER);
}

EXPORT int ppoll(struct pollfd *files, nfds_t count, const struct timespec *span,
		 const sigset_t *mask)
{
	if (is_full_poll(files, count, CALLER))
		return poll_full(files, count, span, mask, CALLER);
	return poll_again(files, count, REAL(ppoll)(files, count, span, mask), CALLER);
}

/* Those of a program that was compiled with _FORTIFY_SOURCE also state the array's bytes. */

extern int __poll_chk(struct pollfd *files, nfds_t count, int millis, size_t bytes);
EXPORT int __poll_chk(struct pollfd *files, nfds_t count, int millis, size_t bytes)
{
	if (is_full_poll(files, count, CALLER))
		return poll_millis(files, count, millis, CALLER);
	return poll_again(files, count, REAL(__poll_chk)(files, count, millis, bytes), CALLER);
}

extern int __ppoll_chk(struct pollfd *files, nfds_t count, const struct timespec *span,
		       const sigset_t *mask, size_t bytes);
EXPORT int __ppoll_chk(struct pollfd *files, nfds_t count, const struct timespec *span,
		       const sigset_t *mask, size_t bytes)
{
	if (is_full_poll(files, count, CALLER))
		return poll_full(files, count, span, mask, CALLER);
	return poll_again(files, count, REAL(__ppoll_chk)(files, count, span, mask, bytes), CALLER);
}

/* The sets of a select. A program may have larger ones than FD_SETSIZE. */
enum { SET_BYTES = 8192, SETS = 3, WORD_BITS = 64 };

struct sets {
	fd_set *of[SETS];
	int count;
	size_t bytes;
	char before[SETS][SET_BYTES];
	int found;
};

/* Keeps what the sets are before the call. */
static void keep_sets(struct sets *sets, int count, fd_set *in, fd_set *out, fd_set *other)
{
	fd_set *of[SETS] = { in, out, other };

	sets->count = count;
	sets->bytes = count > 0 ? ((size_t)count + WORD_BITS - 1) / WORD_BITS * 8 : 0;
	if (sets->bytes > SET_BYTES)
		sets->bytes = 0;
	for (int i = 0; i < SETS; i++) {
		sets->of[i] = of[i];
		if (of[i])
			memcpy(sets->before[i], of[i], sets->bytes);
	}
}

/* Looks which files are ready, without a wait. `now` has the sets before and after that. */
static long select_now(const struct sets *sets, char *const now[SETS])
{
	const struct timespec none = { 0, 0 };

	return host_call(SYS_pselect6, sets->count, (long)now[0], (long)now[1], (long)now[2],
			 (long)&none, 0);
}

static void put_sets(const struct sets *sets, char *const now[SETS])
{
	for (int i = 0; i < SETS; i++) {
		if (now[i])
			memcpy(sets->of[i], now[i], sets->bytes);
	}
}

static int select_again(struct sets *sets, int found, const void *caller)
{
	char *now[SETS];
	long again;

	if (!turn_need(caller) || found <= 0 || !sets->bytes)
		return found;
	for (int i = 0; i < SETS; i++)
		now[i] = sets->of[i] ? sets->before[i] : NULL;
	again = select_now(sets, now);
	if (again > 0)
		put_sets(sets, now);
	return again > 0 ? (int)again : found;
}

/* Takes the files that are full from a set of those to be written. Returns whether there were
 * some. */
static bool take_full(uint64_t *out, size_t bytes)
{
	bool is_any = false;

	for (size_t i = 0; i < bytes / sizeof(*out); i++) {
		for (uint64_t left = out[i]; left; left &= left - 1) {
			int bit = __builtin_ctzll(left);

			if (!file_is_full((int)(i * WORD_BITS) + bit))
				continue;
			out[i] &= ~(UINT64_C(1) << bit);
			is_any = true;
		}
	}
	return is_any;
}

static bool look_at_sets(void *what)
{
	struct sets *sets = what;
	uint64_t out[SET_BYTES / sizeof(uint64_t)];
	char in[SET_BYTES], other[SET_BYTES];
	char *now[SETS] = { sets->of[0] ? in : NULL, (char *)out, sets->of[2] ? other : NULL };

	for (int i = 0; i < SETS; i++) {
		if (now[i])
			memcpy(now[i], sets->before[i], sets->bytes);
	}
	take_full(out, sets->bytes);
	sets->found = (int)select_now(sets, now);
	put_sets(sets, now);
	return sets->found;
}

static bool is_full_select(const struct sets *sets, const void *caller)
{
	uint64_t out[SET_BYTES / sizeof(uint64_t)];

	if (!turn_is_own(caller) || !sets->bytes || !sets->of[1])
		return false;
	turn_have(caller);
	memcpy(out, sets->before[1], sets->bytes);
	return take_full(out, sets->bytes);
}

static int select_full(struct sets *sets, const struct timespec *span, const sigset_t *mask,
		       const void *caller)
{
	int result = full_wait(look_at_sets, sets, span, mask, caller);

	for (int i = 0; !result && i < SETS; i++) {
		if (sets->of[i])
			memset(sets->of[i], 0, sets->bytes);
	}
	return full_result(result, sets->found);
}

EXPORT int select(int count, fd_set *restrict in, fd_set *restrict out, fd_set *restrict other,
		  struct timeval *restrict span)
{
	struct timespec exact = { span ? span->tv_sec : 0, span ? span->tv_usec * 1000 : 0 };
	struct sets sets;

	keep_sets(&sets, count, in, out, other);
	if (is_full_select(&sets, CALLER))
		return select_full(&sets, span ? &exact : NULL, NULL, CALLER);
	return select_again(&sets, REAL(select)(count, in, out, other, span), CALLER);
}

EXPORT int pselect(int count, fd_set *restrict in, fd_set *restrict out, fd_set *restrict other,
		   const struct timespec *restrict span, const sigset_t *restrict mask)
{
	struct sets sets;

	keep_sets(&sets, count, in, out, other);
	if (is_full_select(&sets, CALLER))
		return select_full(&sets, span, mask, CALLER);
	return select_again(&sets, REAL(pselect)(count, in, out, other, span, mask), CALLER);
}
