/* SPDX-License-Identifier: MIT OR Apache-2.0 */
/* host_clock.c - finds out how tkrun reads the host's clocks: by the vDSO, or by system calls. */
#define _GNU_SOURCE
#include "tkrun.h"

#include <errno.h>
#include <linux/filter.h>
#include <stdlib.h>
#include <sys/prctl.h>
#include <sys/syscall.h>
#include <unistd.h>

/* Lets each clock_gettime of this thread fail that is a system call. */
static bool refuse_calls(void)
{
	static struct sock_filter code[] = {
		BPF_STMT(BPF_LD | BPF_W | BPF_ABS,
			 offsetof(struct seccomp_data, nr)),
		BPF_JUMP(BPF_JMP | BPF_JEQ | BPF_K, SYS_clock_gettime, 0, 1),
		BPF_STMT(BPF_RET | BPF_K, SECCOMP_RET_ERRNO | ENOSYS),
		BPF_STMT(BPF_RET | BPF_K, SECCOMP_RET_ALLOW),
	};
	static const struct sock_fprog program = {
		sizeof(code) / sizeof(*code), code
	};

	return !prctl(PR_SET_NO_NEW_PRIVS, 1, 0, 0, 0) &&
	       !syscall(SYS_seccomp, SECCOMP_SET_MODE_FILTER, 0, &program);
}

static void *try_read(void *makes_calls)
{
	struct timespec now;

	*(bool *)makes_calls = refuse_calls() &&
			       clock_gettime(CLOCK_MONOTONIC_RAW, &now);
	return NULL;
}

/* Returns whether the C library reads the host's clocks by system calls: the vDSO can't read the
 * host's clocksource, or there is no vDSO. The filter stays with its thread. */
static bool vdso_makes_calls(void)
{
	bool makes_calls = false;
	pthread_t thread;

	if (!pthread_create(&thread, NULL, try_read, &makes_calls))
		pthread_join(thread, NULL);
	return makes_calls;
}

void find_host_clock(struct run *run)
{
	bool makes_calls = vdso_makes_calls();

	if (makes_calls)
		host_gettime = host_gettime_by_call;
	/* tests make programs read by calls where the vDSO can read */
	run->calls_host = makes_calls || getenv("TKRUN_HOST_CALLS");
}
