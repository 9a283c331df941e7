/* SPDX-License-Identifier: MIT OR Apache-2.0 */
/* machine.c - maps the files of the clocks, and reads their counter. */
#define _GNU_SOURCE
#include "counter.h"
#include "waiters.h"

#include <fcntl.h>
#include <stdio.h>
#include <sys/mman.h>
#include <sys/stat.h>
#include <unistd.h>

/* Opens a file of the clocks. Returns -1, or minus an error, if it can't. */
static int open_file(const char *folder, enum clock_file which)
{
	char path[4096];

	if (!folder)
		return (int)host_ask_file(which);
	snprintf(path, sizeof(path), "%s/%s", folder,
		 which == FILE_CONTROL ? "control" : "page");
	return open(path,
		    (which == FILE_PAGE ? O_RDONLY : O_RDWR) | O_CLOEXEC);
}

static void *map_file(const char *folder, enum clock_file which, size_t size)
{
	int file = open_file(folder, which);
	struct stat status;
	void *memory = MAP_FAILED;

	if (file < 0)
		return NULL;
	if (!host_call(SYS_fstat, file, (long)&status, 0, 0, 0, 0) &&
	    (size_t)status.st_size >= size)
		memory = mmap(NULL, (size_t)status.st_size,
			      PROT_READ | (which == FILE_PAGE ? 0 : PROT_WRITE),
			      MAP_SHARED, file, 0);
	close(file);
	return memory == MAP_FAILED ? NULL : memory;
}

bool machine_attach(struct machine *machine, const char *folder)
{
	struct shared_page *shared =
		map_file(folder, FILE_PAGE_WRITABLE, sizeof(*shared));

	if (shared)
		machine->control = map_file(folder, FILE_CONTROL,
					    sizeof(*machine->control));
	else
		shared = map_file(folder, FILE_PAGE, sizeof(*shared));
	if (!shared || shared->layout != MACHINE_LAYOUT ||
	    tkc_page_attach(&shared->page))
		return false;
	machine->shared = shared;
	return true;
}

void machine_init_lock(struct control *control)
{
	pthread_mutexattr_t attributes;

	pthread_mutexattr_init(&attributes);
	pthread_mutexattr_setpshared(&attributes, PTHREAD_PROCESS_SHARED);
	pthread_mutexattr_setrobust(&attributes, PTHREAD_MUTEX_ROBUST);
	pthread_mutex_init(&control->lock, &attributes);
	control->pid_space = waiters_space();
	control->tkrun = getpid();
}

uint64_t machine_host(enum counter_kind kind)
{
	uint64_t host = early_host(kind, host_gettime);

	fence_reading();
	return host;
}

uint64_t machine_early_reading(const struct shared_page *shared)
{
	return early_reading(shared, host_gettime);
}

uint64_t machine_reading(const struct shared_page *shared)
{
	uint64_t reading = machine_early_reading(shared);

	fence_reading();
	return reading;
}

bool machine_is_asleep(const struct machine *machine)
{
	struct tkc_snapshot snapshot;

	return tkc_page_read(&machine->shared->page, &snapshot) ||
	       tkc_snapshot_asleep(&snapshot);
}

int machine_clock(clockid_t clock)
{
	switch (clock) {
	case CLOCK_REALTIME:
	case CLOCK_MONOTONIC:
	case CLOCK_MONOTONIC_RAW:
	case CLOCK_REALTIME_COARSE:
	case CLOCK_MONOTONIC_COARSE:
	case CLOCK_BOOTTIME:
	case CLOCK_TAI:
		return clock;
	case CLOCK_REALTIME_ALARM:
		return CLOCK_REALTIME;
	case CLOCK_BOOTTIME_ALARM:
		return CLOCK_BOOTTIME;
	default:
		return -1;
	}
}
