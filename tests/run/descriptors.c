/* SPDX-License-Identifier: MIT OR Apache-2.0 */
/*
 * Prints the numbers of the open files, at the start and after all calls about time, and the rights of
 * the memory in which tkrun has put the clocks. Then it executes itself, and prints them again.
 *
 *     descriptors [LAST]
 */
#define _GNU_SOURCE
#include <fcntl.h>
#include <stdint.h>
#include <stdio.h>
#include <string.h>
#include <sys/auxv.h>
#include <sys/time.h>
#include <sys/timex.h>
#include <time.h>
#include <unistd.h>

enum { FILES_MOST = 1024, LINE_MOST = 4096 };

static void print_files(void)
{
	printf("files");
	for (int file = 0; file < FILES_MOST; file++) {
		if (fcntl(file, F_GETFD) >= 0)
			printf(" %d", file);
	}
	puts("");
}

/* Prints the rights of the vDSO, and of all mappings of files of the clocks. */
static void print_rights(void)
{
	uint64_t vdso = getauxval(AT_SYSINFO_EHDR);
	FILE *maps = fopen("/proc/self/maps", "r");
	char line[LINE_MOST], rights[8];
	unsigned long start, end;

	while (maps && fgets(line, sizeof(line), maps)) {
		const char *name = strrchr(line, '/');

		if (sscanf(line, "%lx-%lx %7s", &start, &end, rights) != 3)
			continue;
		if (start <= vdso && vdso < end)
			printf("vdso %s\n", rights);
		else if (strstr(line, "/tkrun.") && name)
			printf("%.*s %s\n", (int)strcspn(name + 1, "\n"),
			       name + 1, rights);
	}
	fclose(maps);
}

/* Errors don't matter: the caller may deny sets. */
static void make_calls(void)
{
	struct timespec now, span = { 0, 1000 };
	struct timex request = { 0 };

	clock_gettime(CLOCK_REALTIME, &now);
	clock_gettime(CLOCK_MONOTONIC_COARSE, &now);
	clock_settime(CLOCK_REALTIME, &now);
	adjtimex(&request);
	nanosleep(&span, NULL);
}

int main(int count, char **words)
{
	char *next[] = { words[0], "last", NULL };

	print_files();
	make_calls();
	print_files();
	print_rights();
	fflush(stdout);
	if (count < 2)
		execv("/proc/self/exe", next);
	return 0;
}
