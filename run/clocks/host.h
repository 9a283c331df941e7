/* SPDX-License-Identifier: MIT OR Apache-2.0 */
/* host.h - the host's own calls, whatever libtkrun.so answers in their place. */
#ifndef HOST_H
#define HOST_H

#include <stdbool.h>
#include <stddef.h>
#include <stdint.h>
#include <sys/types.h>
#include <time.h>

enum { NANOS = 1000000000 };

/* The host's clock_gettime. libtkrun.so sets it to the C library's. */
extern int (*host_gettime)(clockid_t, struct timespec *);

/* The same by a system call that is the host's. The C library's makes one too if
 * the vDSO can't read the host's clocksource, but the filter of a run would send
 * that to tkrun. */
int host_gettime_by_call(clockid_t clock, struct timespec *out);

/* Returns a span, or a time, of these ns. */
static inline struct timespec span_of(uint64_t nanos)
{
	return (struct timespec){ (time_t)(nanos / NANOS),
				  (long)(nanos % NANOS) };
}

/* Returns whether the nanoseconds are none of 0 to 999999999. */
static inline bool is_bad(const struct timespec *time)
{
	return time->tv_nsec < 0 || time->tv_nsec >= NANOS;
}

/* Makes a system call. Returns its result, or minus an error. */
static inline long host_call(long number, long a, long b, long c, long d, long e,
			     long f)
{
	register long r10 __asm__("r10") = d;
	register long r8 __asm__("r8") = e;
	register long r9 __asm__("r9") = f;
	long result;

	__asm__ volatile("syscall"
			 : "=a"(result)
			 : "a"(number), "D"(a), "S"(b), "d"(c), "r"(r10),
			   "r"(r8), "r"(r9)
			 : "rcx", "r11", "memory");
	return result;
}

/* Returns whether the kernel could read memory whose address a program has passed to a call. It
 * doesn't set errno. */
bool host_can_read(const void *memory, size_t size);

/* Returns the host's clock in ns. */
uint64_t host_nanos(clockid_t clock);

/* The sixth argument of a call that is the host's, which the kernel ignores: the
 * filter of a run lets it pass. */
#define HOST_CALL 0x746b7275

/*
 * System calls that no kernel has: the filter of a run sends them to tkrun. It answers the first
 * with a file of the clocks. So a process gets the clocks also if it has another root, another
 * /dev/shm, or no environment. By the second, the library says that it has the clocks, if tkrun
 * can't know it because the program wasn't traced.
 */
enum { CALL_FILE = 0x746b72, CALL_ATTACHED };

/* The argument of CALL_FILE. A process of another user doesn't get the two in the middle. */
enum clock_file {
	FILE_PAGE,
	FILE_PAGE_WRITABLE,
	FILE_CONTROL,
	FILE_ROWS, /* of the record */
	FILE_LOG,
	FILE_NET, /* a socket to tkrun, if there is a --link */
	FILE_TURNS, /* the table of the turns, with --seed */
	CLOCK_FILES
};

/* Asks tkrun for a file of the clocks. Returns its number, or minus an error. */
long host_ask_file(enum clock_file which);

/* Opens a file by its path, or else by asking tkrun: the process may have another root, or have
 * become another user. Returns its number, or minus an error. */
long host_open(const char *path, int flags, enum clock_file which);

/* Sleeps for `nanos` ns of the host's time, or until a signal comes. */
void host_nap(uint64_t nanos);

/*
 * Waits on a futex that processes share, while it is `value`, until the host's
 * MONOTONIC is `until` ns. Returns 0 or an error. A thread may be cancelled
 * here.
 */
int host_futex_wait(_Atomic uint32_t *futex, uint32_t value, uint64_t until);
void host_futex_wake(_Atomic uint32_t *futex);

#endif
