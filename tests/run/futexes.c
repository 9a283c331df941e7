/* SPDX-License-Identifier: MIT OR Apache-2.0 */
/*
 * Makes waits of a futex whose clock the operation chooses, with FUTEX_CLOCK_REALTIME. Prints
 * each that doesn't return what it returns without the C library. Then lets a wake end waits of one
 * process and of several: the kernel finds a wait only by a wake of the same kind.
 */
#define _GNU_SOURCE
#include "faults.h"

#include <linux/futex.h>
#include <pthread.h>
#include <stdint.h>
#include <stdio.h>
#include <sys/syscall.h>
#include <time.h>
#include <unistd.h>

/* Makes the system call. Returns its result, or minus an error. */
static long by_kernel(uint32_t *futex, long operation, long value,
		      const struct timespec *time)
{
	register long r10 __asm__("r10") = (long)time;
	register long r8 __asm__("r8") = 0;
	register long r9 __asm__("r9") = 0;
	long result;

	__asm__ volatile("syscall"
			 : "=a"(result)
			 : "a"(SYS_futex), "D"(futex), "S"(operation),
			   "d"(value), "r"(r10), "r"(r8), "r"(r9)
			 : "rcx", "r11", "memory");
	return result;
}

static void compare(long operation, long value, struct timespec time)
{
	uint32_t one = 0, other = 0;
	long result = syscall(SYS_futex, &one, operation, value, &time, NULL, 0);

	CHECK((result < 0 ? -errno : result) ==
	      by_kernel(&other, operation, value, &time));
	CHECK(one == other);
}

enum { FOREVER_SEC = 100000 };

static uint32_t word;
static long kind;
static _Atomic int woken;

static void *wait_for_wake(void *unused)
{
	struct timespec span = { FOREVER_SEC, 0 }, until;

	clock_gettime(CLOCK_MONOTONIC, &until);
	until.tv_sec += FOREVER_SEC;
	CHECK(!syscall(SYS_futex, &word, FUTEX_WAIT | kind, 0, &span, NULL, 0));
	woken++;
	CHECK(!syscall(SYS_futex, &word, FUTEX_WAIT_BITSET | kind, 0, &until, NULL, 1));
	woken++;
	return unused;
}

/* Wakes a thread twice. The wake of the other kind finds none. */
static void check_wakes(void)
{
	pthread_t thread;

	woken = 0;
	pthread_create(&thread, NULL, wait_for_wake, NULL);
	while (woken < 2) {
		CHECK(!syscall(SYS_futex, &word, FUTEX_WAKE | (kind ^ FUTEX_PRIVATE_FLAG), 1));
		syscall(SYS_futex, &word, FUTEX_WAKE | kind, 1);
	}
	pthread_join(thread, NULL);
}

/* Waits for several futexes until a time before 0. An old kernel has no such call. */
static void check_wrong_times(void)
{
	struct futex_waitv futex = { .uaddr = (uintptr_t)&word, .flags = FUTEX_32 };
	struct timespec before = { -1, 0 };

	CHECK(syscall(SYS_futex_waitv, &futex, 1, 0, &before, CLOCK_MONOTONIC) == -1);
	CHECK(errno == EINVAL || errno == ENOSYS);
}

int main(void)
{
	static const long OPERATIONS[] = { FUTEX_WAIT, FUTEX_WAIT_PRIVATE,
					   FUTEX_LOCK_PI,
					   FUTEX_LOCK_PI_PRIVATE };

	for (int i = 0; i < 4; i++) {
		long operation = OPERATIONS[i] | FUTEX_CLOCK_REALTIME;

		compare(operation, 0, (struct timespec){ 0, 1000000 });
		compare(operation, 1, (struct timespec){ 0, 1000000 });
		compare(operation, 0, (struct timespec){ 0, -1 });
		compare(operation, 0, (struct timespec){ -1, 0 });
	}
	check_wakes();
	kind = FUTEX_PRIVATE_FLAG;
	check_wakes();
	check_wrong_times();
	return faults > 0;
}
