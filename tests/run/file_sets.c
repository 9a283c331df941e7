/* SPDX-License-Identifier: MIT OR Apache-2.0 */
/*
 * file_sets: with --file-times, sets the times of files in this folder, to the present and to other
 * times, and prints each that isn't the one that was set.
 */
#define _GNU_SOURCE
#include "file_status.h"

#include <sys/time.h>
#include <utime.h>

static struct timespec host_now(void)
{
	struct timespec time;

	host_call(SYS_clock_gettime, CLOCK_REALTIME, (long)&time, 0, 0, 0, HOST_CALL);
	return time;
}

#define TIMES(time) (const struct timespec[2]){ time, time }

/* Sets both times in each way. Without a time, that is the present. */
static int set_by(int call, const struct timespec *both, int file)
{
	struct timeval micros[2] = { { both ? both->tv_sec : 0, both ? both->tv_nsec / 1000 : 0 } };
	struct utimbuf seconds = { micros->tv_sec, micros->tv_sec };
	const struct timespec present[2] = { { 7, UTIME_NOW }, { -7, UTIME_NOW } };

	micros[1] = micros[0];
	switch (call) {
	case 0: return utime("s", both ? &seconds : NULL);
	case 1: return utimes("s", both ? micros : NULL);
	case 2: return lutimes("s", both ? micros : NULL);
	case 3: return futimes(file, both ? micros : NULL);
	case 4: return futimesat(AT_FDCWD, "s", both ? micros : NULL);
	case 5: return utimensat(AT_FDCWD, "s", both, 0);
	case 6: return futimens(file, both);
	case 7: return futimens(file, both ? both : present);
	case 8: return (int)syscall(SYS_utimensat, file, NULL, both, 0);
	case 9: return (int)syscall(SYS_utimes, "s", both ? micros : NULL);
	case 10: return (int)syscall(SYS_futimesat, AT_FDCWD, "s", both ? micros : NULL);
	default: return (int)syscall(SYS_utime, "s", both ? &seconds : NULL);
	}
}

/* Returns what such a call sets: some have us or s only. */
static struct timespec rounded(int call, struct timespec time)
{
	if (call % 11 == 0)
		time.tv_nsec = 0;
	else if (call < 5 || call > 8)
		time.tv_nsec -= time.tv_nsec % 1000;
	return time;
}

/* A time that a program sets stays, also if it is one of the host's in the run, or will be. */
static void set_times(void)
{
	const struct timespec nap = { 0, 30000000 };
	struct stat shown;
	int file;

	put("s", "");
	file = open("s", O_RDWR);
	for (int call = 0; call < 12; call++) {
		struct timespec times[] = { { 5, 6789 }, host_now(), host_now(), now() };

		times[2].tv_nsec = (times[2].tv_nsec + 20000000) % NANOS;
		for (size_t i = 0; i < sizeof(times) / sizeof(*times); i++) {
			CHECK(!set_by(call, TIMES(times[i]), file));
			if (i == 2 && call == 5)
				host_call(SYS_nanosleep, (long)&nap, 0, 0, 0, 0, HOST_CALL);
			shown = of("s");
			CHECK(is_same(shown.st_mtim, rounded(call, times[i])));
			CHECK(is_same(shown.st_atim, rounded(call, times[i])));
			CHECK(is_now(shown.st_ctim));
		}
		CHECK(!set_by(call, NULL, file));
		shown = of("s");
		CHECK(is_now(shown.st_mtim) && is_now(shown.st_atim));
		pass(1);
		check_same(&shown, &(struct stat[]){ of("s") }[0]);
	}
	close(file);
}

/* One of both times is the present, or isn't set. */
static void set_one(void)
{
	const struct timespec omit[2] = { { 5, 0 }, { 0, UTIME_OMIT } },
			      present[2] = { { 0, UTIME_NOW }, { 9, 9 } };
	struct stat before, shown;

	put("one", "");
	before = of("one");
	pass(1);
	CHECK(!utimensat(AT_FDCWD, "one", omit, 0));
	shown = of("one");
	CHECK(is_same(shown.st_mtim, before.st_mtim) && is_same(shown.st_atim, omit[0]));
	CHECK(!utimensat(AT_FDCWD, "one", present, 0));
	shown = of("one");
	CHECK(is_same(shown.st_mtim, present[1]) && is_now(shown.st_atim));
	/* as programs do that copy a file */
	put("copy", "");
	CHECK(!utimensat(AT_FDCWD, "copy", TIMES(before.st_mtim), 0));
	CHECK(is_same(of("copy").st_mtim, before.st_mtim));
}

/* Some of these times get the same place in the list of those that were set. */
static void set_many(void)
{
	put("many", "");
	for (int i = 0; i < 3000; i++) {
		struct timespec time = host_now();

		CHECK(!utimensat(AT_FDCWD, "many", TIMES(time), 0));
		CHECK(is_same(of("many").st_mtim, time));
	}
}

int main(void)
{
	find_counter();
	set_times();
	set_one();
	set_many();
	return faults;
}
