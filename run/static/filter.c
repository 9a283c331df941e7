/* SPDX-License-Identifier: MIT OR Apache-2.0 */
/* filter.c - the filter of system calls. */
#define _GNU_SOURCE
#include "random.h"
#include "static.h"

#include <elf.h>
#include <errno.h>
#include <fcntl.h>
#include <linux/audit.h>
#include <linux/filter.h>
#include <poll.h>
#include <stddef.h>
#include <stdio.h>
#include <string.h>
#include <sys/ioctl.h>
#include <sys/prctl.h>
#include <sys/syscall.h>
#include <sys/utsname.h>
#include <unistd.h>

#ifndef SECCOMP_IOCTL_NOTIF_SET_FLAGS /* since Linux 6.6 */
#define SECCOMP_IOCTL_NOTIF_SET_FLAGS SECCOMP_IOW(4, uint64_t)
#define SECCOMP_USER_NOTIF_FD_SYNC_WAKE_UP 1UL
#endif

#ifndef SECCOMP_FILTER_FLAG_WAIT_KILLABLE_RECV /* since Linux 5.19 */
#define SECCOMP_FILTER_FLAG_WAIT_KILLABLE_RECV (1UL << 5)
#endif

enum { CODE_MOST = 64, HEADERS_MOST = 64 };

static const int ASKED[] = { SYS_gettimeofday,	SYS_time,
			     SYS_clock_settime, SYS_settimeofday,
			     SYS_adjtimex,	SYS_clock_adjtime,
			     SYS_execve,	SYS_execveat,
			     CALL_FILE,		CALL_ATTACHED };
static const int SLEEPS[] = { SYS_nanosleep, SYS_clock_nanosleep,
			      SYS_restart_syscall };

bool is_static_file(const char *path)
{
	Elf64_Phdr headers[HEADERS_MOST];
	Elf64_Ehdr head;
	int file = open(path, O_RDONLY | O_CLOEXEC);
	bool is_static = file >= 0 &&
			 read(file, &head, sizeof(head)) == sizeof(head) &&
			 !memcmp(head.e_ident, ELFMAG, SELFMAG) &&
			 head.e_machine == EM_X86_64 &&
			 head.e_phnum <= HEADERS_MOST;
	ssize_t size = is_static ? head.e_phnum * (ssize_t)sizeof(*headers) : 0;

	is_static = is_static && pread(file, headers, (size_t)size,
				       (off_t)head.e_phoff) == size;
	for (int i = 0; is_static && i < head.e_phnum; i++)
		is_static = headers[i].p_type != PT_INTERP;
	if (file >= 0)
		close(file);
	return is_static;
}

/* A read or a sleep of the host that libtkrun.so, the image or tkrun makes passes:
 * see host_gettime_by_call and host_nap. */
static size_t put_unless_host(struct sock_filter *code, size_t at, int number)
{
	code[at++] = (struct sock_filter)BPF_JUMP(BPF_JMP | BPF_JEQ | BPF_K,
						  (uint32_t)number, 0, 4);
	code[at++] = (struct sock_filter)BPF_STMT(
		BPF_LD | BPF_W | BPF_ABS,
		offsetof(struct seccomp_data, args[5]));
	code[at++] = (struct sock_filter)BPF_JUMP(BPF_JMP | BPF_JEQ | BPF_K,
						  HOST_CALL, 0, 1);
	code[at++] = (struct sock_filter)BPF_STMT(BPF_RET | BPF_K,
						  SECCOMP_RET_ALLOW);
	code[at++] = (struct sock_filter)BPF_STMT(BPF_RET | BPF_K,
						  SECCOMP_RET_USER_NOTIF);
	return at;
}

static size_t put_asked(struct sock_filter *code, size_t at, int number)
{
	code[at++] = (struct sock_filter)BPF_JUMP(BPF_JMP | BPF_JEQ | BPF_K,
						  (uint32_t)number, 0, 1);
	code[at++] = (struct sock_filter)BPF_STMT(BPF_RET | BPF_K,
						  SECCOMP_RET_USER_NOTIF);
	return at;
}

static size_t put_all(struct sock_filter *code)
{
	size_t at = 0;

	code[at++] = (struct sock_filter)BPF_STMT(
		BPF_LD | BPF_W | BPF_ABS, offsetof(struct seccomp_data, arch));
	code[at++] = (struct sock_filter)BPF_JUMP(BPF_JMP | BPF_JEQ | BPF_K,
						  AUDIT_ARCH_X86_64, 1, 0);
	code[at++] = (struct sock_filter)BPF_STMT(BPF_RET | BPF_K,
						  SECCOMP_RET_ALLOW);
	code[at++] = (struct sock_filter)BPF_STMT(
		BPF_LD | BPF_W | BPF_ABS, offsetof(struct seccomp_data, nr));
	at = put_unless_host(code, at, SYS_clock_gettime);
	for (size_t i = 0; i < sizeof(ASKED) / sizeof(*ASKED); i++)
		at = put_asked(code, at, ASKED[i]);
	for (size_t i = 0; i < sizeof(SLEEPS) / sizeof(*SLEEPS); i++)
		at = put_unless_host(code, at, SLEEPS[i]);
	if (random_is_seeded())
		at = put_asked(code, at, SYS_getrandom);
	code[at++] = (struct sock_filter)BPF_STMT(BPF_RET | BPF_K,
						  SECCOMP_RET_ALLOW);
	return at;
}

/* From when tkrun has read of a call until it answers, no signal with a handler
 * interrupts the call, if the kernel can do that. */
static long install(const struct sock_fprog *program)
{
	unsigned long flags = SECCOMP_FILTER_FLAG_NEW_LISTENER |
			      SECCOMP_FILTER_FLAG_SPEC_ALLOW;
	long file = syscall(SYS_seccomp, SECCOMP_SET_MODE_FILTER,
			    flags | SECCOMP_FILTER_FLAG_WAIT_KILLABLE_RECV,
			    program);

	if (file < 0 && errno == EINVAL)
		file = syscall(SYS_seccomp, SECCOMP_SET_MODE_FILTER, flags,
			       program);
	return file;
}

/* Before Linux 5.5, tkrun can't let the kernel make a call. */
static bool has_continue(void)
{
	struct utsname system;
	int major = 0, minor = 0;

	uname(&system);
	sscanf(system.release, "%d.%d", &major, &minor);
	return major > 5 || (major == 5 && minor >= 5);
}

/* Only who has CAP_SYS_ADMIN may install a filter and start programs that get
 * more rights. */
int filter_install(void)
{
	struct sock_filter code[CODE_MOST];
	struct sock_fprog program = { (unsigned short)put_all(code), code };
	long file;

	if (!has_continue())
		return -ENOSYS;
	file = install(&program);
	if (file < 0 && errno == EACCES) {
		prctl(PR_SET_NO_NEW_PRIVS, 1, 0, 0, 0);
		file = install(&program);
	}
	if (file < 0)
		return -errno;
	/* an answer is faster if it runs where the call waits */
	ioctl((int)file, SECCOMP_IOCTL_NOTIF_SET_FLAGS,
	      SECCOMP_USER_NOTIF_FD_SYNC_WAKE_UP);
	return (int)file;
}

bool filter_is_over(int listener)
{
	struct pollfd file = { listener, 0, 0 };

	return poll(&file, 1, 0) > 0 && file.revents & POLLHUP;
}

bool filter_next(int listener, struct seccomp_notif *ask)
{
	memset(ask, 0, sizeof(*ask));
	return !ioctl(listener, SECCOMP_IOCTL_NOTIF_RECV, ask);
}

/* Linux 5.5 and 5.6 don't know the ioctl by its present number: EINVAL. */
bool filter_has_call(int listener, uint64_t id)
{
	return !ioctl(listener, SECCOMP_IOCTL_NOTIF_ID_VALID, &id) ||
	       errno != ENOENT;
}

void filter_continue(int listener, uint64_t id)
{
	struct seccomp_notif_resp reply = {
		.id = id, .flags = SECCOMP_USER_NOTIF_FLAG_CONTINUE
	};

	ioctl(listener, SECCOMP_IOCTL_NOTIF_SEND, &reply);
}

void filter_refuse(int listener, uint64_t id, int error)
{
	struct seccomp_notif_resp reply = { .id = id, .error = -error };

	ioctl(listener, SECCOMP_IOCTL_NOTIF_SEND, &reply);
}

bool filter_asks(long call)
{
	for (size_t i = 0; i < sizeof(ASKED) / sizeof(*ASKED); i++) {
		if (ASKED[i] == call)
			return true;
	}
	return call == SYS_clock_gettime || filter_asks_sleep(call) ||
	       (call == SYS_getrandom && random_is_seeded());
}

bool filter_asks_sleep(long call)
{
	for (size_t i = 0; i < sizeof(SLEEPS) / sizeof(*SLEEPS); i++) {
		if (SLEEPS[i] == call)
			return true;
	}
	return false;
}

bool is_exec(const struct seccomp_notif *ask)
{
	return ask->data.nr == SYS_execve || ask->data.nr == SYS_execveat;
}
