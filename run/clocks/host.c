/* SPDX-License-Identifier: MIT OR Apache-2.0 */
/* host.c - the host's own calls. */
#define _GNU_SOURCE
#include "host.h"

#include <errno.h>
#include <fcntl.h>
#include <limits.h>
#include <linux/futex.h>
#include <pthread.h>
#include <sys/syscall.h>

enum { WORD_BYTES = 8, PAGE_SIZE = 4096, NO_OPERATION = -1 };

int (*host_gettime)(clockid_t, struct timespec *) = clock_gettime;

int host_gettime_by_call(clockid_t clock, struct timespec *out)
{
	long result = host_call(SYS_clock_gettime, clock, (long)out, 0, 0, 0,
				HOST_CALL);

	if (!result)
		return 0;
	errno = (int)-result;
	return -1;
}

/* A signal may come before tkrun has heard of the call. */
long host_ask_file(enum clock_file which)
{
	long file;

	do {
		file = host_call(CALL_FILE, which, 0, 0, 0, 0, 0);
	} while (file == -EINTR);
	return file;
}

long host_open(const char *path, int flags, enum clock_file which)
{
	long file = host_call(SYS_open, (long)path, flags | O_CLOEXEC, 0, 0, 0, 0);
	long given = file < 0 ? host_ask_file(which) : file;

	return given < 0 ? file : given;
}

/* rt_sigprocmask reads 8 bytes, and then refuses such an operation. */
static bool can_read_word(uintptr_t word)
{
	return word && host_call(SYS_rt_sigprocmask, NO_OPERATION, (long)word, 0, WORD_BYTES, 0,
				 0) != -EFAULT;
}

/* A word of 8 bytes is in one page. */
bool host_can_read(const void *memory, size_t size)
{
	uintptr_t word = (uintptr_t)memory & -(uintptr_t)WORD_BYTES, last;

	if (!size)
		return true;
	if (__builtin_add_overflow((uintptr_t)memory, size - 1, &last))
		return false;
	for (; word <= last; word = (word | (PAGE_SIZE - 1)) + 1) {
		if (!can_read_word(word))
			return false;
	}
	return true;
}

uint64_t host_nanos(clockid_t clock)
{
	struct timespec now;

	host_gettime(clock, &now);
	return (uint64_t)now.tv_sec * NANOS + (uint64_t)now.tv_nsec;
}

void host_nap(uint64_t nanos)
{
	struct timespec span = span_of(nanos);

	host_call(SYS_nanosleep, (long)&span, 0, 0, 0, 0, HOST_CALL);
}

int host_futex_wait(_Atomic uint32_t *futex, uint32_t value, uint64_t until)
{
	struct timespec time = span_of(until);
	long result;
	int type;

	pthread_setcanceltype(PTHREAD_CANCEL_ASYNCHRONOUS, &type);
	result = host_call(SYS_futex, (long)futex, FUTEX_WAIT_BITSET, value,
			   (long)&time, 0, FUTEX_BITSET_MATCH_ANY);
	pthread_setcanceltype(type, NULL);
	return (int)-result;
}

void host_futex_wake(_Atomic uint32_t *futex)
{
	host_call(SYS_futex, (long)futex, FUTEX_WAKE, INT_MAX, 0, 0, 0);
}
