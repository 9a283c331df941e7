/* SPDX-License-Identifier: MIT OR Apache-2.0 */
/*
 * asker_memory.c - copies to and from the memory of a thread that has asked. If a thread whose
 * call waits for an answer is killed, another one may get its number at any time. So its memory is
 * written in this order: the files of the memory are opened by the number; then the call still has
 * to wait, so that the number was the thread's before; and then the files stay those of its
 * process, whoever has the number later.
 */
#define _GNU_SOURCE
#include "asker_memory.h"

#include "static.h"

#include <errno.h>
#include <fcntl.h>
#include <stdio.h>
#include <stdlib.h>
#include <sys/ioctl.h>
#include <sys/uio.h>
#include <unistd.h>

/* struct procmap_query of the kernel's linux/fs.h, since Linux 6.11 */
struct area_query {
	uint64_t size, query_flags, address, start, end, flags, unused[3];
	uint32_t sizes[4];
	uint64_t places[2];
};

#define QUERY_AREA _IOWR('f', 17, struct area_query)

enum { AREA_WRITABLE = 2 };

/* The files of a process's memory, or -1. */
struct memory {
	int bytes, maps;
};

static int open_file(const struct seccomp_notif *ask, const char *name,
		     int flags)
{
	char path[64];

	snprintf(path, sizeof(path), "/proc/%u/%s", ask->pid, name);
	return open(path, flags | O_CLOEXEC);
}

static void close_file(int file)
{
	if (file >= 0)
		close(file);
}

/* Returns whether the list of areas has one with an address that the process
 * itself couldn't write to. */
static bool is_listed_read_only(int maps, uint64_t address)
{
	int copy = fcntl(maps, F_DUPFD_CLOEXEC, 0);
	FILE *list = fdopen(copy, "r");
	unsigned long start, end = 0;
	char write = 0, *line = NULL;
	size_t size = 0;
	bool is_in = false;

	if (list)
		rewind(list); /* it has been read before */
	while (list && !is_in && getline(&line, &size, list) > 0)
		is_in = sscanf(line, "%lx-%lx %*c%c", &start, &end, &write) ==
				3 &&
			start <= address && address < end;
	free(line);
	if (list)
		fclose(list);
	else
		close_file(copy);
	return !list || (is_in && write != 'w');
}

/* Who writes by the file `mem` may write what the process can't. */
static bool is_read_only(int maps, uint64_t address)
{
	struct area_query query = { .size = sizeof(query),
				    .address = address };

	if (!ioctl(maps, QUERY_AREA, &query))
		return !(query.flags & AREA_WRITABLE);
	return errno != ENOENT && is_listed_read_only(maps, address);
}

int memory_put(const struct seccomp_notif *ask, int listener, uint64_t address,
	       const void *value, size_t size)
{
	struct memory memory = { open_file(ask, "mem", O_WRONLY),
				 open_file(ask, "maps", O_RDONLY) };
	bool is_done = memory.bytes >= 0 && memory.maps >= 0 &&
		       filter_has_call(listener, ask->id) &&
		       !is_read_only(memory.maps, address) &&
		       !is_read_only(memory.maps, address + size - 1) &&
		       pwrite(memory.bytes, value, size, (off_t)address) ==
			       (ssize_t)size;

	close_file(memory.bytes);
	close_file(memory.maps);
	return is_done ? 0 : EFAULT;
}

/* The copy was the thread's if its call still waits after it. */
int memory_fetch(const struct seccomp_notif *ask, int listener,
		 uint64_t address, void *value, size_t size)
{
	struct iovec here = { value, size };
	struct iovec there = { (void *)address, size };

	if (process_vm_readv((pid_t)ask->pid, &here, 1, &there, 1, 0) ==
		    (ssize_t)size &&
	    filter_has_call(listener, ask->id))
		return 0;
	return EFAULT;
}
