/* SPDX-License-Identifier: MIT OR Apache-2.0 */
/*
 * Makes the calls that the lines of its input name, and prints for each what it returned, its errno
 * or "-", and all that it has stored. A field that a call leaves as it was is 77.
 *
 *     echo "gettime 0" | calls
 *     0 - 1000000000.123456789
 *
 * The calls are those of the table at the end, with their arguments as numbers. Those of adjtimex
 * are fields, such as status=64. `sys_` stands before a call that is made by syscall(2).
 */
#define _GNU_SOURCE
#include "steering.h"

#include <sys/timeb.h>

static void get_time(void)
{
	struct timespec time = LEFT_TIME;
	int result = clock_gettime((clockid_t)argument(1), &time);

	show_time(result, time);
}

static void sys_get_time(void)
{
	struct timespec time = LEFT_TIME;
	long result = syscall(SYS_clock_gettime, argument(1), &time);

	show_time(result, time);
}

static void get_resolution(void)
{
	struct timespec time = LEFT_TIME;
	int result = clock_getres((clockid_t)argument(1), &time);

	show_time(result, time);
}

static void sys_get_resolution(void)
{
	struct timespec time = LEFT_TIME;
	long result = syscall(SYS_clock_getres, argument(1), &time);

	show_time(result, time);
}

static void get_micros(void)
{
	struct timeval time = { LEFT, LEFT };
	struct timezone zone = { LEFT, LEFT };
	int result = gettimeofday(&time, &zone);

	show_micros(result, time);
	printf(" %d %d\n", zone.tz_minuteswest, zone.tz_dsttime);
}

/* Without a zone, a program needs no system call. */
static void get_only_micros(void)
{
	struct timeval time = { LEFT, LEFT };
	int result = gettimeofday(&time, NULL);

	show_micros(result, time);
	putchar('\n');
}

static void sys_get_micros(void)
{
	struct timeval time = { LEFT, LEFT };
	struct timezone zone = { LEFT, LEFT };
	long result = syscall(SYS_gettimeofday, &time, &zone);

	show_micros(result, time);
	printf(" %d %d\n", zone.tz_minuteswest, zone.tz_dsttime);
}

static void get_second(void)
{
	time_t stored = LEFT, result = time(&stored);

	printf("%ld - %ld %ld\n", result, stored, time(NULL));
}

static void sys_get_second(void)
{
	time_t stored = LEFT, result = syscall(SYS_time, &stored);

	printf("%ld - %ld %ld\n", result, stored, syscall(SYS_time, NULL));
}

static void get_base(void)
{
	struct timespec time = LEFT_TIME;
	int result = timespec_get(&time, (int)argument(1));

	show_time(result, time);
}

static void get_old(void)
{
	struct timeb old = { LEFT, LEFT, LEFT, LEFT };
	int result = ftime(&old);

	show_result(result);
	printf(" %ld.%03hu %hd %hd\n", old.time, old.millitm, old.timezone, old.dstflag);
}

static void set_time(void)
{
	struct timespec time = { argument(2), argument(3) };

	show_result(clock_settime((clockid_t)argument(1), &time));
	putchar('\n');
}

static void sys_set_time(void)
{
	struct timespec time = { argument(2), argument(3) };

	show_result(syscall(SYS_clock_settime, argument(1), &time));
	putchar('\n');
}

/* SEC USEC, or WEST DST, or all four. */
static void set_micros(void)
{
	struct timeval time = { argument(1), argument(2) };
	struct timezone zone = { (int)argument(3), (int)argument(4) };

	show_result(settimeofday(&time, words_count > 3 ? &zone : NULL));
	putchar('\n');
}

static void sys_set_micros(void)
{
	struct timeval time = { argument(1), argument(2) };
	struct timezone zone = { (int)argument(3), (int)argument(4) };

	show_result(syscall(SYS_settimeofday, &time, words_count > 3 ? &zone : NULL));
	putchar('\n');
}

static void set_zone(void)
{
	struct timezone zone = { (int)argument(1), (int)argument(2) };

	show_result(settimeofday(NULL, &zone));
	putchar('\n');
}

/* A static program has no stime. */
static void set_second(void)
{
	int (*stime)(const time_t *) = (int (*)(const time_t *))dlsym(RTLD_DEFAULT, "stime");
	struct timespec time = { argument(1), 0 };

	show_result(stime ? stime(&time.tv_sec) : clock_settime(CLOCK_REALTIME, &time));
	putchar('\n');
}

/* SEC NSEC. Prints MONOTONIC after the sleep. */
static void sleep_span(void)
{
	struct timespec span = { argument(1), argument(2) }, time = LEFT_TIME;
	int result = nanosleep(&span, NULL);

	clock_gettime(CLOCK_MONOTONIC, &time);
	show_time(result, time);
}

/* CLOCK SEC NSEC. Prints MONOTONIC after the sleep. */
static void sleep_on(void)
{
	struct timespec span = { argument(2), argument(3) }, time = LEFT_TIME;
	int result = clock_nanosleep((clockid_t)argument(1), 0, &span, NULL);

	clock_gettime(CLOCK_MONOTONIC, &time);
	show_time(result, time);
}

/* CLOCK SEC NSEC. Prints MONOTONIC after the sleep. */
static void sleep_until(void)
{
	struct timespec until = { argument(2), argument(3) }, time = LEFT_TIME;
	int result = clock_nanosleep((clockid_t)argument(1), TIMER_ABSTIME, &until, NULL);

	clock_gettime(CLOCK_MONOTONIC, &time);
	show_time(result, time);
}

static const struct {
	const char *name;
	void (*make)(void);
} CALLS[] = {
	{ "gettime", get_time },	    { "sys_gettime", sys_get_time },
	{ "getres", get_resolution },	    { "sys_getres", sys_get_resolution },
	{ "gettimeofday", get_micros },	    { "sys_gettimeofday", sys_get_micros },
	{ "micros", get_only_micros },	    { "time", get_second },
	{ "sys_time", sys_get_second },	    { "timespec_get", get_base },
	{ "ftime", get_old },		    { "settime", set_time },
	{ "sys_settime", sys_set_time },    { "settimeofday", set_micros },
	{ "sys_settimeofday", sys_set_micros }, { "setzone", set_zone },
	{ "stime", set_second },	    { "adjtimex", adjust },
	{ "sys_adjtimex", sys_adjust },	    { "ntp_adjtime", adjust_by_ntp },
	{ "clock_adjtime", adjust_clock },  { "sys_clock_adjtime", sys_adjust_clock },
	{ "adjtime", adjust_slowly },	    { "ntp_gettime", get_quality },
	{ "old_ntp_gettime", get_old_quality }, { "sleep", sleep_span },
	{ "sleep_on", sleep_on },	    { "sleep_until", sleep_until },
};

static void make_call(void)
{
	for (size_t i = 0; i < sizeof(CALLS) / sizeof(*CALLS); i++) {
		if (strcmp(CALLS[i].name, words[0]))
			continue;
		errno = 0;
		CALLS[i].make();
		return;
	}
	printf("no call %s\n", words[0]);
}

int main(void)
{
	char line[1024];

	while (fgets(line, sizeof(line), stdin)) {
		split(line);
		if (words_count)
			make_call();
		fflush(stdout);
	}
	return 0;
}
