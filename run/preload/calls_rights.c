/* SPDX-License-Identifier: MIT OR Apache-2.0 */
/*
 * calls_rights.c - the calls about CAP_SYS_TIME, the capability to set the clock. The kernel
 * grants it to no program of a run. But a daemon that drops root wants to keep it, and sets the
 * clocks of tkrun by the library. So what a process asks for is noted here, by the kernel's rules
 * (capabilities(7)), and the kernel gets the request without it.
 */
#define _GNU_SOURCE
#include "calls_system.h"

#include <linux/capability.h>
#include <linux/securebits.h>
#include <stdarg.h>
#include <string.h>
#include <sys/prctl.h>
#include <sys/syscall.h>
#include <unistd.h>

#define TIME_BIT (1U << CAP_SYS_TIME)

struct users {
	uid_t real, effective, saved;
};

/* The sets of this process that contain the capability, and its users when they were noted. */
static struct {
	bool is_known, permitted, effective, inheritable, ambient, bounding;
	struct users users;
} sets;

static pthread_mutex_t lock = PTHREAD_MUTEX_INITIALIZER;

static bool has_root(const struct users *users)
{
	return !users->real || !users->effective || !users->saved;
}

/* Does what the kernel does when the users of a process change. */
static void follow_users(const struct users *now)
{
	long bits = host_call(SYS_prctl, PR_GET_SECUREBITS, 0, 0, 0, 0, 0);

	if (bits & SECBIT_NO_SETUID_FIXUP)
		return;
	if (has_root(&sets.users) && !has_root(now)) {
		sets.permitted &= (bits & SECBIT_KEEP_CAPS) != 0;
		sets.effective &= sets.permitted;
		sets.ambient = false;
	}
	if (!sets.users.effective && now->effective)
		sets.effective = false;
	if (sets.users.effective && !now->effective)
		sets.effective = sets.permitted;
}

/* Brings the sets to the present users. The caller has the lock. */
static void follow(void)
{
	struct users now;

	getresuid(&now.real, &now.effective, &now.saved);
	if (sets.is_known) {
		follow_users(&now);
	} else {
		sets.permitted = !now.real || !now.effective;
		sets.effective = !now.effective;
		sets.bounding = sets.is_known = true;
	}
	sets.users = now;
}

/* Returns whether a request is of this thread. */
static bool is_own(const struct __user_cap_header_struct *header)
{
	return !header->pid || header->pid == getpid() ||
	       header->pid == host_call(SYS_gettid, 0, 0, 0, 0, 0, 0);
}

/* Returns the structs of a version, or 0 if it is none. */
static size_t count_of(uint32_t version)
{
	switch (version) {
	case _LINUX_CAPABILITY_VERSION_1:
		return _LINUX_CAPABILITY_U32S_1;
	case _LINUX_CAPABILITY_VERSION_2:
	case _LINUX_CAPABILITY_VERSION_3:
		return _LINUX_CAPABILITY_U32S_3;
	default:
		return 0;
	}
}

static uint32_t bit_if(bool is_set)
{
	return is_set ? TIME_BIT : 0;
}

EXPORT int capget(cap_user_header_t header, cap_user_data_t data)
{
	long result = host_call(SYS_capget, (long)header, (long)data, 0, 0, 0,
				0);

	if (result || !data || !machine() || !is_own(header))
		return (int)result_of(result);
	pthread_mutex_lock(&lock);
	follow();
	data->permitted |= bit_if(sets.permitted);
	data->effective |= bit_if(sets.effective);
	data->inheritable |= bit_if(sets.inheritable);
	pthread_mutex_unlock(&lock);
	return 0;
}

/* Returns whether this thread may add to its inheritable set what it isn't permitted. */
static bool may_inherit_any(void)
{
	struct __user_cap_header_struct header = { .version = _LINUX_CAPABILITY_VERSION_3 };
	struct __user_cap_data_struct own[_LINUX_CAPABILITY_U32S_3] = { 0 };

	host_call(SYS_capget, (long)&header, (long)own, 0, 0, 0, 0);
	return own[0].effective & 1U << CAP_SETPCAP;
}

/* Returns whether the kernel would let a process that has these sets have those. */
static bool may_have(const struct __user_cap_data_struct *wanted)
{
	return (!(wanted->permitted & TIME_BIT) || sets.permitted) &&
	       !(wanted->effective & ~wanted->permitted & TIME_BIT) &&
	       (!(wanted->inheritable & TIME_BIT) || sets.inheritable ||
		(sets.bounding && (sets.permitted || may_inherit_any())));
}

static long set_without(cap_user_header_t header, const struct __user_cap_data_struct *data,
			size_t count)
{
	struct __user_cap_data_struct wanted[_LINUX_CAPABILITY_U32S_3];
	long result;

	memcpy(wanted, data, count * sizeof(*wanted));
	follow();
	if (!may_have(wanted))
		return -EPERM;
	wanted->permitted &= ~TIME_BIT;
	wanted->effective &= ~TIME_BIT;
	wanted->inheritable &= ~TIME_BIT;
	result = host_call(SYS_capset, (long)header, (long)wanted, 0, 0, 0, 0);
	if (result)
		return result;
	sets.permitted = data->permitted & TIME_BIT;
	sets.effective = data->effective & TIME_BIT;
	sets.inheritable = data->inheritable & TIME_BIT;
	sets.ambient &= sets.permitted && sets.inheritable;
	return 0;
}

EXPORT int capset(cap_user_header_t header, const struct __user_cap_data_struct *data)
{
	size_t count = header && data ? count_of(header->version) : 0;
	long result;

	if (!count || !machine() || !is_own(header))
		return (int)result_of(
			host_call(SYS_capset, (long)header, (long)data, 0, 0, 0, 0));
	pthread_mutex_lock(&lock);
	result = set_without(header, data, count);
	pthread_mutex_unlock(&lock);
	return (int)result_of(result);
}

static long ask_kernel(int option, const long *a)
{
	return host_call(SYS_prctl, option, a[0], a[1], a[2], a[3], 0);
}

static long drop_bounding(const long *a)
{
	long result = ask_kernel(PR_CAPBSET_DROP, a);

	sets.bounding &= result != 0;
	return result;
}

static long change_ambient(const long *a)
{
	bool may_raise = sets.permitted && sets.inheritable;

	switch (a[0]) {
	case PR_CAP_AMBIENT_IS_SET:
		return sets.ambient;
	case PR_CAP_AMBIENT_RAISE:
		sets.ambient |= may_raise;
		return may_raise ? 0 : -EPERM;
	default:
		sets.ambient = false;
		return ask_kernel(PR_CAP_AMBIENT, a);
	}
}

/* Answers a request for the capability, and notes the sets before the kernel's rules for them
 * change. */
static long answer(int option, const long *a)
{
	bool is_ours = a[option == PR_CAP_AMBIENT] == CAP_SYS_TIME ||
		       (option == PR_CAP_AMBIENT && a[0] == PR_CAP_AMBIENT_CLEAR_ALL);

	follow();
	if (is_ours && option == PR_CAPBSET_READ)
		return sets.bounding;
	if (is_ours && option == PR_CAPBSET_DROP)
		return drop_bounding(a);
	if (is_ours && option == PR_CAP_AMBIENT)
		return change_ambient(a);
	return ask_kernel(option, a);
}

static long answer_prctl(int option, const long *a)
{
	long result;

	if (!machine() ||
	    (option != PR_SET_KEEPCAPS && option != PR_SET_SECUREBITS &&
	     option != PR_CAPBSET_READ && option != PR_CAPBSET_DROP && option != PR_CAP_AMBIENT))
		return ask_kernel(option, a);
	pthread_mutex_lock(&lock);
	result = answer(option, a);
	pthread_mutex_unlock(&lock);
	return result;
}

EXPORT int prctl(int option, ...)
{
	va_list list;
	long a[4];

	va_start(list, option);
	for (int i = 0; i < 4; i++)
		a[i] = va_arg(list, long);
	va_end(list);
	return (int)result_of(answer_prctl(option, a));
}

MAKE(capget, (cap_user_header_t)a[0], (cap_user_data_t)a[1])
MAKE(capset, (cap_user_header_t)a[0], (const struct __user_cap_data_struct *)a[1])
MAKE(prctl, (int)a[0], a[1], a[2], a[3], a[4])
