/* SPDX-License-Identifier: MIT OR Apache-2.0 */
/*
 * calls_times.c - the times of files. The kernel stamps a file that is changed, also if a program
 * sets its times to the present. With --file-times the library converts what programs read, and
 * notes the times that they set otherwise, which stay as they are.
 */
#define _GNU_SOURCE
#include "calls_system.h"
#include "clocks/file_times.h"

#include <fcntl.h>
#include <sys/stat.h>
#include <sys/time.h>
#include <utime.h>

enum { STATUS_VERSIONS = 2 }; /* of glibc's old calls: both have the kernel's struct */

static const struct machine *converting(void)
{
	const struct machine *m = machine();

	return m && m->shared->has_file_times ? m : NULL;
}

static int end_status(long result, struct stat *out)
{
	const struct machine *m = result ? NULL : converting();

	if (m) {
		file_times_convert(m, &out->st_atim);
		file_times_convert(m, &out->st_mtim);
		file_times_convert(m, &out->st_ctim);
	}
	return result ? refuse((int)-result) : 0;
}

EXPORT int fstatat(int folder, const char *restrict path, struct stat *restrict out, int flags)
{
	return end_status(host_call(SYS_newfstatat, folder, (long)path, (long)out, flags, 0, 0),
			  out);
}

EXPORT int stat(const char *restrict path, struct stat *restrict out)
{
	return fstatat(AT_FDCWD, path, out, 0);
}

EXPORT int lstat(const char *restrict path, struct stat *restrict out)
{
	return fstatat(AT_FDCWD, path, out, AT_SYMLINK_NOFOLLOW);
}

EXPORT int fstat(int file, struct stat *out)
{
	return end_status(host_call(SYS_fstat, file, (long)out, 0, 0, 0, 0), out);
}

static void convert_part(const struct machine *m, struct statx_timestamp *part)
{
	struct timespec time = { part->tv_sec, part->tv_nsec };

	file_times_convert(m, &time);
	part->tv_sec = time.tv_sec;
	part->tv_nsec = (uint32_t)time.tv_nsec;
}

/* What the kernel hasn't stored is 0, and no time of the run. */
EXPORT int statx(int folder, const char *restrict path, int flags, unsigned int mask,
		 struct statx *restrict out)
{
	long result = host_call(SYS_statx, folder, (long)path, flags, mask, (long)out, 0);
	const struct machine *m = result ? NULL : converting();

	if (m) {
		convert_part(m, &out->stx_atime);
		convert_part(m, &out->stx_btime);
		convert_part(m, &out->stx_ctime);
		convert_part(m, &out->stx_mtime);
	}
	return result ? refuse((int)-result) : 0;
}

/* Other names. glibc has the second ones for programs that were linked before 2.33. */

EXPORT int stat64(const char *restrict path, struct stat64 *restrict out)
{
	return stat(path, (struct stat *)out);
}

EXPORT int lstat64(const char *restrict path, struct stat64 *restrict out)
{
	return lstat(path, (struct stat *)out);
}

EXPORT int fstat64(int file, struct stat64 *out)
{
	return fstat(file, (struct stat *)out);
}

EXPORT int fstatat64(int folder, const char *restrict path, struct stat64 *restrict out, int flags)
{
	return fstatat(folder, path, (struct stat *)out, flags);
}

#define OLD(name, parameters, call)                                             \
	extern int name parameters;                                             \
	EXPORT int name parameters                                              \
	{                                                                       \
		return version >= 0 && version < STATUS_VERSIONS ? call : refuse(EINVAL); \
	}

OLD(__xstat, (int version, const char *path, struct stat *out), stat(path, out))
OLD(__lxstat, (int version, const char *path, struct stat *out), lstat(path, out))
OLD(__fxstat, (int version, int file, struct stat *out), fstat(file, out))
OLD(__fxstatat, (int version, int folder, const char *path, struct stat *out, int flags),
    fstatat(folder, path, out, flags))
OLD(__xstat64, (int version, const char *path, struct stat64 *out), stat64(path, out))
OLD(__lxstat64, (int version, const char *path, struct stat64 *out), lstat64(path, out))
OLD(__fxstat64, (int version, int file, struct stat64 *out), fstat64(file, out))
OLD(__fxstatat64, (int version, int folder, const char *path, struct stat64 *out, int flags),
    fstatat64(folder, path, out, flags))

/* Notes the times that a call has set. NULL means the present. */
static int end_set(int result, const struct timespec *times)
{
	const struct machine *m = result || !times ? NULL : converting();

	for (int i = 0; m && i < 2; i++) {
		if (!is_bad(&times[i])) /* UTIME_NOW and UTIME_OMIT are */
			file_times_state(m, &times[i]);
	}
	return result;
}

static int end_micros(int result, const struct timeval *times)
{
	struct timespec exact[2];

	for (int i = 0; !result && times && i < 2; i++)
		exact[i] = (struct timespec){ times[i].tv_sec, times[i].tv_usec * 1000 };
	return end_set(result, times ? exact : NULL);
}

EXPORT int utimensat(int folder, const char *path, const struct timespec times[2], int flags)
{
	return end_set(REAL(utimensat)(folder, path, times, flags), times);
}

/* The system call takes no path for a file. */
long make_utimensat(const long *a)
{
	return end_set((int)make_host(SYS_utimensat, a), (const struct timespec *)a[2]);
}

EXPORT int futimens(int file, const struct timespec times[2])
{
	return end_set(REAL(futimens)(file, times), times);
}

EXPORT int utimes(const char *path, const struct timeval times[2])
{
	return end_micros(REAL(utimes)(path, times), times);
}

EXPORT int lutimes(const char *path, const struct timeval times[2])
{
	return end_micros(REAL(lutimes)(path, times), times);
}

EXPORT int futimes(int file, const struct timeval times[2])
{
	return end_micros(REAL(futimes)(file, times), times);
}

EXPORT int futimesat(int folder, const char *path, const struct timeval times[2])
{
	return end_micros(REAL(futimesat)(folder, path, times), times);
}

EXPORT int utime(const char *path, const struct utimbuf *times)
{
	int result = REAL(utime)(path, times);
	struct timespec exact[2] = { { 0, 0 }, { 0, 0 } };

	if (!result && times) {
		exact[0].tv_sec = times->actime;
		exact[1].tv_sec = times->modtime;
	}
	return end_set(result, times ? exact : NULL);
}
