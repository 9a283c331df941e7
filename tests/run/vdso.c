/* SPDX-License-Identifier: MIT OR Apache-2.0 */
/*
 * Reads each clock past the library: by the functions of the vDSO, which it finds by
 * AT_SYSINFO_EHDR, and by the system call. Prints what is wrong.
 *
 *     vdso [none]    there is a vDSO, or none
 */
#define _GNU_SOURCE
#include "gettimes.h"
#include "vdso_functions.h"

#include <stdint.h>
#include <stdio.h>
#include <string.h>
#include <sys/auxv.h>
#include <sys/syscall.h>
#include <sys/time.h>
#include <time.h>
#include <unistd.h>

static const char *base;

static int64_t micros_of(const struct timespec *time)
{
	return time->tv_sec * INT64_C(1000000) + time->tv_nsec / 1000;
}

/* Checks that a function returns REALTIME in us: one between two reads of it. */
static void check_micros(gettime *read, int (*read_micros)(struct timeval *, void *))
{
	struct timespec before, after;
	struct timeval micros;
	int64_t time;

	CHECK(!read(CLOCK_REALTIME, &before));
	CHECK(!read_micros(&micros, NULL) && is_after(micros.tv_sec, START));
	CHECK(!read(CLOCK_REALTIME, &after));
	time = micros.tv_sec * INT64_C(1000000) + micros.tv_usec;
	CHECK(micros_of(&before) <= time && time <= micros_of(&after));
}

static void check_vdso(void)
{
	gettime *read = (gettime *)find_function(base, "__vdso_clock_gettime");
	gettime *resolve = (gettime *)find_function(base, "__vdso_clock_getres");
	int (*read_micros)(struct timeval *, void *) =
		(int (*)(struct timeval *, void *))find_function(
			base, "__vdso_gettimeofday");
	time_t (*read_second)(time_t *) =
		(time_t (*)(time_t *))find_function(base, "__vdso_time");
	long (*find_processor)(unsigned int *, unsigned int *, void *) =
		(long (*)(unsigned int *, unsigned int *, void *))find_function(
			base, "__vdso_getcpu");
	unsigned int processor = UINT32_MAX, node;
	struct timespec time;
	time_t second;

	check_clocks(read);
	CHECK(read(77, &time) == -EINVAL);
	CHECK(!resolve(CLOCK_MONOTONIC, &time) && time.tv_nsec == 1);
	CHECK(!resolve(CLOCK_MONOTONIC_COARSE, &time) && time.tv_nsec > 1);
	check_micros(read, read_micros);
	CHECK(read_second(&second) == second && is_after(second, START));
	CHECK(!find_processor(&processor, &node, NULL) && processor < 65536);
}

/* Makes the system call where no library sees it. */
static int gettime_by_call(clockid_t clock, struct timespec *out)
{
	long result;

	__asm__ volatile("syscall"
			 : "=a"(result)
			 : "a"(SYS_clock_gettime), "D"(clock), "S"(out)
			 : "rcx", "r11", "memory");
	return (int)result;
}

int main(int count, char **words)
{
	base = (const char *)getauxval(AT_SYSINFO_EHDR);
	if (base)
		check_vdso();
	else
		CHECK(count > 1 && !strcmp(words[1], "none"));
	check_clocks(gettime_by_call);
	check_clocks(clock_gettime);
	return faults > 0;
}
