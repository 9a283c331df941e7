/* SPDX-License-Identifier: MIT OR Apache-2.0 */
/* find.c - finds the table of a run, and the next functions of the calls. */
#define _GNU_SOURCE
#include "find.h"
#include "clocks/host.h"

#include <dlfcn.h>
#include <fcntl.h>
#include <link.h>
#include <pthread.h>
#include <stdio.h>
#include <stdlib.h>
#include <string.h>
#include <sys/mman.h>
#include <sys/stat.h>
#include <sys/syscall.h>
#include <time.h>

enum { LIBRARIES = 2 };

/* The other libraries of tkrun, by their addresses. Their calls need no turn: a thread makes some of
 * them while it has the lock of the clocks. */
static struct {
	uintptr_t start, end;
} libraries[LIBRARIES];

struct turns *turns_table;

void *turn_real_call(const char *name)
{
	void *found = dlsym(RTLD_NEXT, name);

	if (!found)
		abort();
	return found;
}

static int note_library(struct dl_phdr_info *library, size_t size, void *count)
{
	const char *name = strrchr(library->dlpi_name, '/');
	size_t *next = count;

	(void)size;
	if (!name || (strcmp(name, "/libtkrun.so") && strcmp(name, "/libtkrun-net.so")))
		return 0;
	for (int i = 0; i < library->dlpi_phnum; i++) {
		const ElfW(Phdr) *part = &library->dlpi_phdr[i];
		uintptr_t start = library->dlpi_addr + part->p_vaddr;

		if (part->p_type != PT_LOAD || !(part->p_flags & PF_X))
			continue;
		libraries[*next].start = start;
		libraries[*next].end = start + part->p_memsz;
	}
	return ++*next == LIBRARIES;
}

bool turn_is_found(const void *caller)
{
	uintptr_t at = (uintptr_t)caller;

	for (int i = 0; i < LIBRARIES; i++) {
		if (at >= libraries[i].start && at < libraries[i].end)
			return false;
	}
	return turns_table;
}

bool turn_is_for(const void *caller)
{
	return turn_is_on() && turn_is_found(caller);
}

/* Stores the name of the table, which is in the folder of the run: that of the node is in it. */
static void name_table(const char *folder, char *path, size_t size)
{
	int length = (int)strlen(folder);
	const char *last = strrchr(folder, '/');

	if (last && !strncmp(last, "/node.", 6))
		length = (int)(last - folder);
	snprintf(path, size, "%.*s/turns", length, folder);
}

static struct turns *map_table(void)
{
	const char *folder = getenv("TKRUN");
	struct turns *memory = MAP_FAILED;
	char path[4096] = "";
	struct stat status;
	int file;

	if (folder)
		name_table(folder, path, sizeof(path));
	file = (int)host_open(path, O_RDWR, FILE_TURNS);
	if (file < 0)
		return NULL;
	if (!fstat(file, &status) && (size_t)status.st_size >= sizeof(*memory))
		memory = mmap(NULL, sizeof(*memory), PROT_READ | PROT_WRITE, MAP_SHARED, file, 0);
	host_call(SYS_close, file, 0, 0, 0, 0, 0);
	return memory == MAP_FAILED || memory->layout != TURNS_LAYOUT ? NULL : memory;
}

/* Before main. The library of the clocks says first that it is there: this process may have to wait
 * for long. Others have found by then which files it has closed when it executed its program. */
__attribute__((constructor)) static void start(void)
{
	size_t count = 0;
	int error = errno;

	dl_iterate_phdr(note_library, &count);
	clock_getres(CLOCK_MONOTONIC, NULL);
	pthread_atfork(NULL, NULL, turn_begin);
	turns_table = map_table();
	turn_forget();
	turn_pass(NULL);
	turn_need(NULL);
	errno = error;
}
