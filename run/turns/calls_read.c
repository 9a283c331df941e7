/* SPDX-License-Identifier: MIT OR Apache-2.0 */
/*
 * calls_read.c - the calls that read a clock, those of stdio that read a file, and system calls. A
 * thread that reads a clock in a loop parks now and then.
 */
#define _GNU_SOURCE
#include "turns.h"

#include <stdarg.h>
#include <stdio.h>
#include <sys/syscall.h>
#include <sys/time.h>
#include <time.h>
#include <unistd.h>

AFTER(int, clock_gettime, (clockid_t clock, struct timespec *out), (clock, out))
AFTER(int, gettimeofday, (struct timeval *restrict out, void *restrict zone), (out, zone))
AFTER(time_t, time, (time_t *out), (out))
AFTER(int, timespec_get, (struct timespec *out, int base), (out, base))

AFTER(char *, fgets, (char *restrict text, int size, FILE *restrict file), (text, size, file))
AFTER(int, getchar, (void), ())
AFTER(ssize_t, getline, (char **restrict text, size_t *restrict size, FILE *restrict file),
      (text, size, file))
AFTER(ssize_t, getdelim,
      (char **restrict text, size_t *restrict size, int end, FILE *restrict file),
      (text, size, end, file))

/* Returns whether a system call sends a signal. */
static bool is_signal(long number)
{
	static const int SIGNALS[] = { SYS_kill,	     SYS_tkill,
				       SYS_tgkill,	     SYS_rt_sigqueueinfo,
				       SYS_rt_tgsigqueueinfo, SYS_pidfd_send_signal };

	for (size_t i = 0; i < sizeof(SIGNALS) / sizeof(*SIGNALS); i++) {
		if (number == SIGNALS[i])
			return true;
	}
	return false;
}

/* A system call has up to six arguments. Those that aren't there may have any value. */
EXPORT long syscall(long number, ...)
{
	va_list list;
	long a[6], result;

	va_start(list, number);
	for (int i = 0; i < 6; i++)
		a[i] = va_arg(list, long);
	va_end(list);
	if (is_signal(number))
		turn_give(CALLER);
	result = REAL(syscall)(number, a[0], a[1], a[2], a[3], a[4], a[5]);
	(is_signal(number) ? turn_have(CALLER) : (void)turn_need(CALLER));
	return result;
}
