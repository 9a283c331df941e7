/* SPDX-License-Identifier: MIT OR Apache-2.0 */
/*
 * Drops root as a daemon does that keeps CAP_SYS_TIME, and sets REALTIME. Prints what is wrong.
 * The kernel must not grant the capability.
 */
#define _GNU_SOURCE
#include "faults.h"

#include <linux/capability.h>
#include <stdint.h>
#include <stdio.h>
#include <string.h>
#include <sys/prctl.h>
#include <sys/syscall.h>
#include <sys/wait.h>
#include <time.h>
#include <unistd.h>

enum { USER = 65531 };

#define TIME_BIT (1U << CAP_SYS_TIME)

static struct __user_cap_header_struct header = {
	.version = _LINUX_CAPABILITY_VERSION_3
};

static struct __user_cap_data_struct get_sets(void)
{
	struct __user_cap_data_struct sets[2] = { 0 };

	CHECK(!syscall(SYS_capget, &header, sets));
	return sets[0];
}

static int set_sets(uint32_t permitted, uint32_t effective, uint32_t inheritable)
{
	struct __user_cap_data_struct sets[2] = { { effective, permitted,
						    inheritable } };

	return (int)syscall(SYS_capset, &header, sets);
}

/* Returns a set of the kernel's. */
static uint64_t kernel_set(const char *name)
{
	unsigned long long set = 0;
	char line[256];
	FILE *status = fopen("/proc/self/status", "re");

	while (status && fgets(line, sizeof(line), status)) {
		if (!strncmp(line, name, strlen(name)))
			sscanf(line + strlen(name), ": %llx", &set);
	}
	if (status)
		fclose(status);
	return set;
}

static void check_kernel(void)
{
	CHECK(!(kernel_set("CapPrm") & TIME_BIT));
	CHECK(!(kernel_set("CapEff") & TIME_BIT));
	CHECK(!(kernel_set("CapInh") & TIME_BIT));
	CHECK(!(kernel_set("CapBnd") & TIME_BIT));
}

/* As chronyd and systemd-timesyncd. */
static void keep(void)
{
	CHECK(prctl(PR_CAPBSET_READ, CAP_SYS_TIME, 0, 0, 0) == 1);
	CHECK(!prctl(PR_SET_KEEPCAPS, 1, 0, 0, 0) && !setuid(USER));
	CHECK(get_sets().permitted & TIME_BIT);
	CHECK(!(get_sets().effective & TIME_BIT));
	CHECK(!set_sets(TIME_BIT, TIME_BIT, 0));
	CHECK(get_sets().permitted == TIME_BIT &&
	      get_sets().effective == TIME_BIT && !get_sets().inheritable);
	check_kernel();
	CHECK(!set_sets(TIME_BIT, 0, TIME_BIT) && !get_sets().effective);
	CHECK(!prctl(PR_CAP_AMBIENT, PR_CAP_AMBIENT_RAISE, CAP_SYS_TIME, 0, 0));
	CHECK(prctl(PR_CAP_AMBIENT, PR_CAP_AMBIENT_IS_SET, CAP_SYS_TIME, 0,
		    0) == 1);
	CHECK(!set_sets(0, 0, 0) && !get_sets().permitted);
	CHECK(!prctl(PR_CAP_AMBIENT, PR_CAP_AMBIENT_IS_SET, CAP_SYS_TIME, 0, 0));
	CHECK(set_sets(TIME_BIT, 0, 0) == -1 && errno == EPERM);
	check_kernel();
}

/* Without PR_SET_KEEPCAPS the capability goes with root. */
static void lose(void)
{
	CHECK(get_sets().permitted & get_sets().effective & TIME_BIT);
	CHECK(!seteuid(USER) && !(get_sets().effective & TIME_BIT));
	CHECK(get_sets().permitted & TIME_BIT);
	CHECK(!seteuid(0) && get_sets().effective & TIME_BIT);
	CHECK(!setuid(USER) && !(get_sets().permitted & TIME_BIT));
	CHECK(set_sets(TIME_BIT, TIME_BIT, 0) == -1 && errno == EPERM);
	check_kernel();
}

/* What isn't permitted is inherited only by CAP_SETPCAP, and nothing beyond the bounding set. */
static void inherit(void)
{
	const uint32_t others = 1U << CAP_SETPCAP;

	CHECK(!set_sets(others, others, 0) && !set_sets(others, others, TIME_BIT));
	CHECK(get_sets().inheritable == TIME_BIT && !(get_sets().permitted & TIME_BIT));
	CHECK(!set_sets(others, 0, 0));
	CHECK(set_sets(others, 0, TIME_BIT) == -1 && errno == EPERM);
	CHECK(!get_sets().inheritable);
	check_kernel();
}

static void refuse(void)
{
	CHECK(set_sets(0, TIME_BIT, 0) == -1 && errno == EPERM);
	CHECK(!prctl(PR_CAPBSET_DROP, CAP_SYS_TIME, 0, 0, 0) &&
	      !prctl(PR_CAPBSET_READ, CAP_SYS_TIME, 0, 0, 0));
	CHECK(set_sets(TIME_BIT, 0, TIME_BIT) == -1 && errno == EPERM);
	header.version = 0;
	CHECK(syscall(SYS_capget, &header, NULL) == 0 || errno == EINVAL);
	CHECK(header.version == _LINUX_CAPABILITY_VERSION_3);
	header.pid = -1;
	CHECK(set_sets(0, 0, 0) == -1);
}

/* Runs a part in a child, and counts its faults. */
static void run(void (*part)(void))
{
	pid_t child = fork();
	int status = 0;

	if (!child) {
		part();
		_exit(faults > 0);
	}
	CHECK(waitpid(child, &status, 0) == child && !status);
}

int main(void)
{
	struct timespec time = { 2000000000, 0 };

	run(keep);
	run(lose);
	run(inherit);
	run(refuse);
	CHECK(!prctl(PR_SET_KEEPCAPS, 1, 0, 0, 0) && !setuid(USER));
	CHECK(!set_sets(TIME_BIT, TIME_BIT, 0));
	CHECK(!clock_settime(CLOCK_REALTIME, &time));
	CHECK(!clock_gettime(CLOCK_REALTIME, &time) &&
	      time.tv_sec >= 2000000000 && time.tv_sec < 2000000100);
	return faults > 0;
}
