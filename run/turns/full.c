/* SPDX-License-Identifier: MIT OR Apache-2.0 */
/* full.c - waits of poll and the like for connections of TCP that are full by our count. */
#define _GNU_SOURCE
#include "full.h"

#include "clocks/host.h"

#include <pthread.h>

enum { FILES_MOST = 1 << 16, KNOWN_MOST = 1 << 12 };

/* How often a file was found full, times 2, and 1 if it is now. */
static _Atomic uint32_t times[FILES_MOST];
static _Atomic bool is_noted;

/* For epolls and files, the times that are known: the key is in the high bits. If another pair
 * takes the place, a file is reported once more. */
static _Atomic uint64_t known[KNOWN_MOST];

void full_note(int file, bool is_full)
{
	uint32_t now;

	if (file < 0 || file >= FILES_MOST)
		return;
	now = atomic_load(&times[file]);
	if ((now & 1) == is_full)
		return;
	atomic_store(&times[file], now + 1);
	atomic_store(&is_noted, true);
}

bool full_was_noted(void)
{
	return atomic_load(&is_noted);
}

bool full_is_over(int epoll, int file)
{
	uint32_t key = (uint32_t)epoll * FILES_MOST + (uint32_t)file;
	_Atomic uint64_t *place = &known[(key ^ key >> 16) % KNOWN_MOST];
	uint64_t now;

	if (file < 0 || file >= FILES_MOST || !atomic_load(&times[file]))
		return false;
	now = (uint64_t)key << 32 | atomic_load(&times[file]);
	return atomic_exchange(place, now) != now;
}

/* Returns the time of MONOTONIC at which a span ends. */
static struct timespec end_of(const struct timespec *span)
{
	struct timespec end;

	REAL(clock_gettime)(CLOCK_MONOTONIC, &end);
	end.tv_sec += span->tv_sec;
	end.tv_nsec += span->tv_nsec;
	if (end.tv_nsec >= NANOS) {
		end.tv_sec++;
		end.tv_nsec -= NANOS;
	}
	return end;
}

/* What is there may be gone when the thread has the turn. */
static int wait_until(bool (*is_there)(void *), void *what, const struct limit *limit)
{
	while (!is_there(what)) {
		switch (turn_look(is_there, what, limit)) {
		case BLOCK_INTERRUPTED:
			errno = EINTR;
			return -1;
		case BLOCK_LATE:
			return is_there(what);
		default:
			break;
		}
	}
	return 1;
}

int full_result(int result, int found)
{
	if (result <= 0 || found >= 0)
		return result > 0 ? found : result;
	errno = -found;
	return -1;
}

int full_wait(bool (*is_there)(void *), void *what, const struct timespec *span,
	      const sigset_t *mask, const void *caller)
{
	struct timespec end;
	struct limit limit = { CLOCK_MONOTONIC, &end };
	sigset_t before;
	int result;

	turn_have(caller);
	if (span && !span->tv_sec && !span->tv_nsec) {
		result = is_there(what);
		turn_need(caller);
		return result;
	}
	if (span)
		end = end_of(span);
	if (mask)
		pthread_sigmask(SIG_SETMASK, mask, &before);
	result = wait_until(is_there, what, span ? &limit : NULL);
	if (mask)
		pthread_sigmask(SIG_SETMASK, &before, NULL);
	turn_need(caller);
	return result;
}
