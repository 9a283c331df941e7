/* SPDX-License-Identifier: MIT OR Apache-2.0 */
/*
 * file_changes OLD SEC NSEC: with --file-times, changes files in this folder in several ways, and
 * prints each time that isn't the clock's. OLD is a file from before the run, with this time.
 */
#define _GNU_SOURCE
#include "file_status.h"

#include <sys/mman.h>
#include <sys/timex.h>
#include <utime.h>

extern int __xstat(int version, const char *path, struct stat *out);
extern int __fxstat(int version, int file, struct stat *out);
extern int __lxstat(int version, const char *path, struct stat *out);
extern int __fxstatat(int version, int folder, const char *path, struct stat *out, int flags);
#pragma weak __xstat
#pragma weak __fxstat
#pragma weak __lxstat
#pragma weak __fxstatat

static bool is_part(struct statx_timestamp part, struct timespec time)
{
	return part.tv_sec == time.tv_sec && part.tv_nsec == time.tv_nsec;
}

static void check_statx(const struct stat *first, const struct statx *found)
{
	CHECK(is_part(found->stx_atime, first->st_atim));
	CHECK(is_part(found->stx_mtime, first->st_mtim));
	CHECK(is_part(found->stx_ctime, first->st_ctim));
	if (found->stx_mask & STATX_BTIME)
		CHECK(found->stx_btime.tv_sec <= found->stx_mtime.tv_sec &&
		      found->stx_btime.tv_sec > first->st_mtim.tv_sec - 100000);
}

#define SAME(call)                                     \
	do {                                           \
		memset(&other, 0x55, sizeof(other));   \
		CHECK(!(call));                        \
		check_same(&first, &other);            \
	} while (0)
#define SAME64(call)                                   \
	do {                                           \
		memset(&large, 0x55, sizeof(large));   \
		CHECK(!(call));                        \
		memcpy(&other, &large, sizeof(other)); \
		check_same(&first, &other);            \
	} while (0)

/* All calls return the same, by each of their names. */
static void check_calls(const char *path)
{
	struct stat first = of(path), other;
	struct stat64 large;
	struct statx more;
	int file = open(path, O_RDONLY);

	SAME(lstat(path, &other));
	SAME(fstat(file, &other));
	SAME(fstatat(AT_FDCWD, path, &other, 0));
	SAME(fstatat(file, "", &other, AT_EMPTY_PATH));
	SAME64(stat64(path, &large));
	SAME64(lstat64(path, &large));
	SAME64(fstat64(file, &large));
	SAME64(fstatat64(AT_FDCWD, path, &large, 0));
	SAME(syscall(SYS_stat, path, &other));
	SAME(syscall(SYS_lstat, path, &other));
	SAME(syscall(SYS_fstat, file, &other));
	SAME(syscall(SYS_newfstatat, AT_FDCWD, path, &other, 0));
	if (__xstat) {
		SAME(__xstat(1, path, &other));
		SAME(__lxstat(1, path, &other));
		SAME(__fxstat(1, file, &other));
		SAME(__fxstatat(1, AT_FDCWD, path, &other, 0));
		CHECK(__xstat(2, path, &other) && errno == EINVAL);
	}
	CHECK(!statx(AT_FDCWD, path, 0, STATX_ALL, &more));
	check_statx(&first, &more);
	memset(&more, 0, sizeof(more));
	CHECK(!syscall(SYS_statx, file, "", AT_EMPTY_PATH, STATX_ALL, &more));
	check_statx(&first, &more);
	close(file);
}

static void check_errors(void)
{
	struct stat status;
	struct statx more;

	CHECK(stat("none", &status) == -1 && errno == ENOENT);
	CHECK(lstat("none", &status) == -1 && errno == ENOENT);
	CHECK(fstat(-1, &status) == -1 && errno == EBADF);
	CHECK(fstatat(AT_FDCWD, "", &status, 0) == -1 && errno == ENOENT);
	CHECK(stat(".", (struct stat *)1) == -1 && errno == EFAULT);
	CHECK(statx(AT_FDCWD, "none", 0, STATX_ALL, &more) == -1 && errno == ENOENT);
	CHECK(utimensat(AT_FDCWD, "none", NULL, 0) == -1 && errno == ENOENT);
	CHECK(futimens(-1, NULL) == -1 && errno == EBADF);
	CHECK(utime("none", NULL) == -1 && errno == ENOENT);
}

/* Each change of a file has the time of the clock, and each file keeps its time. */
static void change_files(void)
{
	struct stat made, later;
	char name[9], *memory;
	FILE *text;
	int file;

	put("a", "a");
	made = of("a");
	CHECK(is_now(made.st_mtim) && is_now(made.st_ctim) && is_now(made.st_atim));
	check_calls("a");
	pass(3600);
	check_same(&made, &(struct stat[]){ of("a") }[0]);
	CHECK(!chmod("a", 0644));
	later = of("a");
	CHECK(is_same(later.st_mtim, made.st_mtim) && is_now(later.st_ctim));
	put("a", "b");
	CHECK(is_now(of("a").st_mtim));
	pass(1);
	text = fopen("text", "w");
	fprintf(text, "b");
	fclose(text);
	file = open("memory", O_RDWR | O_CREAT, 0600);
	CHECK(!ftruncate(file, 10));
	memory = mmap(NULL, 10, PROT_WRITE, MAP_SHARED, file, 0);
	pass(1);
	*memory = 1;
	CHECK(is_now(of("memory").st_mtim) && !is_same(of("text").st_mtim, of("memory").st_mtim));
	for (int i = 0; i < 9; i++, pass(0)) {
		sprintf(name, "f%d", i);
		CHECK(!mkdir(name, 0700) && is_now(of(name).st_mtim) && is_now(of(".").st_mtim));
	}
	check_calls("f3");
}

/* Since Linux 6.13 a file has the exact time if it is changed after its time was read. It keeps
 * that if the clock is set at once. */
static void set_often(void)
{
	struct timespec time = { 1800000000, 0 };
	struct stat first;

	for (int i = 0; i < 16; i++, time.tv_sec += 100) {
		put("exact", "a");
		of("exact");
		put("exact", "b");
		first = of("exact");
		CHECK(!clock_settime(CLOCK_REALTIME, &time));
		check_same(&first, &(struct stat[]){ of("exact") }[0]);
	}
}

/* A file keeps its time if the clock is set at once, and the next one has the new time. */
static void set_clock(void)
{
	const struct timespec early = { 100000, 0 }, late = { 1999999999, 999999999 };
	struct timex offset = { .modes = ADJ_SETOFFSET | ADJ_NANO, .time = { 5000, 5 } };
	struct stat first, second, third;

	put("1", "");
	first = of("1");
	CHECK(!clock_settime(CLOCK_REALTIME, &late));
	put("2", "");
	second = of("2");
	CHECK(is_now(second.st_mtim) && second.st_mtim.tv_sec >= 1999999999);
	CHECK(!clock_settime(CLOCK_REALTIME, &early));
	put("3", "");
	third = of("3");
	CHECK(is_now(third.st_mtim) && third.st_mtim.tv_sec < 101000);
	CHECK(third.st_mtim.tv_sec >= early.tv_sec);
	CHECK(adjtimex(&offset) >= 0);
	put("4", "");
	CHECK(is_now(of("4").st_mtim) && of("4").st_mtim.tv_sec >= 105000);
	pass(1);
	check_same(&first, &(struct stat[]){ of("1") }[0]);
	check_same(&second, &(struct stat[]){ of("2") }[0]);
	check_same(&third, &(struct stat[]){ of("3") }[0]);
}

int main(int count, char **words)
{
	struct timespec old;

	if (count != 4)
		return EXIT_FAILURE;
	find_counter();
	old = (struct timespec){ atol(words[2]), atol(words[3]) };
	CHECK(is_same(of(words[1]).st_mtim, old));
	check_errors();
	change_files();
	set_often();
	set_clock();
	CHECK(is_same(of(words[1]).st_mtim, old));
	return faults;
}
