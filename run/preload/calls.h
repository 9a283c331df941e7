/* SPDX-License-Identifier: MIT OR Apache-2.0 */
/*
 * calls.h - libtkrun.so: what the calls of a program that tkrun runs have in
 * common. A process that finds no clocks gets the host's calls.
 */
#ifndef CALLS_H
#define CALLS_H

#include "clocks/log.h"
#include "clocks/waiters.h"

#include <errno.h>
#include <linux/futex.h>

#ifndef FUTEX_LOCK_PI2
#define FUTEX_LOCK_PI2 13 /* of linux/futex.h, since Linux 5.14 */
#endif
#ifndef SYS_futex_waitv
#define SYS_futex_waitv 449 /* since Linux 5.16 */
#endif

#define EXPORT __attribute__((visibility("default")))

/* The C library's function of this name. */
#define REAL(name)                                                         \
	({                                                                 \
		static __typeof__(&name) real_##name;                      \
		if (!real_##name)                                          \
			real_##name = (__typeof__(&name))real_call(#name); \
		real_##name;                                               \
	})

/* Returns the machine of this process, or NULL if it has no clocks. */
struct machine *machine(void);

/* Finds a function of the C library, or ends the process. */
void *real_call(const char *name);

/* Lets the functions of the kernel's vDSO read the clocks, too. Returns false if they can't be
 * changed. */
bool vdso_change(const struct machine *m, uint64_t vdso);

/* Sets errno and returns -1. */
int refuse(int error);

/* A call that this process has made, for --log. */
struct logged_call this_call(const char *name, int result);

/* Does what the kernel's settimeofday does. There are clocks. */
int set_micros(const struct timeval *time, const struct timezone *zone);

/* Notes that a wait is the host's, for tkrun's warning. */
void note_host(struct machine *m, enum host_wait wait);

#endif
