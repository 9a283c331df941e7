/* SPDX-License-Identifier: MIT OR Apache-2.0 */
/* calls.c - finds the clocks of a process, and does what all of its calls need. */
#define _GNU_SOURCE
#include "timers.h"
#include "wake.h"
#include "clocks/rows.h"
#include "image/image.h"

#include <dlfcn.h>
#include <stdlib.h>
#include <sys/auxv.h>
#include <unistd.h>

static struct {
	struct machine machine;
	atomic_int state; /* 0: not looked up; 1: no clocks; 2: clocks */
} library;

void *real_call(const char *name)
{
	void *found = dlsym(RTLD_NEXT, name);

	if (!found)
		abort();
	return found;
}

/* Finds out how the host's clocks are read. In a program whose vDSO tkrun has replaced, the C
 * library's function reads the clocks of tkrun. If a debugger traces the program, tkrun couldn't
 * replace it. */
static void find_host_clock(uint64_t vdso)
{
	const union image_head *image = image_head_of(vdso);
	bool has_kernels = library.machine.shared->has_filter && vdso && !image;

	if (image)
		host_gettime = image->gettime;
	if (library.machine.shared->calls_host || !vdso || has_kernels || !host_gettime)
		host_gettime = host_gettime_by_call;
	while (has_kernels &&
	       host_call(CALL_ATTACHED, 0, 0, 0, 0, 0, 0) == -EINTR)
		; /* by a signal, before tkrun has heard of the call */
	if (has_kernels && !vdso_change(&library.machine, vdso))
		note_host(&library.machine, HOST_VDSO);
}

/* Counts the program, unless tkrun has done it. */
static void count_program(uint64_t vdso)
{
	bool is_counted = library.machine.shared->has_filter &&
			  (!vdso || image_head_of(vdso));

	if (library.machine.control && !is_counted)
		atomic_fetch_add(&library.machine.control->attached, 1);
}

/* Only glibc has it. Another C library has other locks and structs, so its programs have the clocks
 * as those without the library do. */
extern const char *gnu_get_libc_version(void) __attribute__((weak));

static bool attach(void)
{
	const char *folder = getenv("TKRUN");

	return gnu_get_libc_version &&
	       ((folder && machine_attach(&library.machine, folder)) ||
		machine_attach(&library.machine, NULL));
}

/* Finds the clocks by the environment, or by asking tkrun. Not inlined, so that `machine` is
 * small. */
__attribute__((noinline, cold)) static void find_machine(void)
{
	uint64_t vdso = getauxval(AT_SYSINFO_EHDR);
	int error = errno; /* main begins with 0 */
	bool is_attached = attach();

	host_gettime = real_call("clock_gettime");
	errno = error;
	if (!is_attached) {
		atomic_store(&library.state, 1);
		return;
	}
	find_host_clock(vdso);
	count_program(vdso);
	if (library.machine.control && library.machine.control->rows.has_readers)
		rows_name_program();
	waiters_forget(&library.machine, getpid()); /* the thread that has just begun */
	timers_hook_forks();
	wake_start();
	atomic_store(&library.state, 2);
	timers_resume(&library.machine);
}

/* Other constructors may call before this one. */
__attribute__((constructor)) static void start(void)
{
	machine();
}

__attribute__((destructor)) static void end(void)
{
	if (atomic_load(&library.state) == 2 && library.machine.control)
		machine_count_rest(&library.machine);
}

struct machine *machine(void)
{
	int now = atomic_load_explicit(&library.state, memory_order_acquire);

	if (!now) {
		find_machine();
		now = atomic_load(&library.state);
	}
	return now == 2 ? &library.machine : NULL;
}

int refuse(int error)
{
	errno = error;
	return -1;
}

struct logged_call this_call(const char *name, int result)
{
	struct control *control = machine()->control;

	return (struct logged_call){ control ? &control->log : NULL, getpid(),
				     name, result };
}

void note_host(struct machine *m, enum host_wait wait)
{
	if (m->control)
		atomic_fetch_or(&m->control->host_waits, 1U << wait);
}
