/* SPDX-License-Identifier: MIT OR Apache-2.0 */
/*
 * Passes addresses to system calls about time that a program can't write to, and
 * some that it can. The results are the kernel's. Prints each that differs.
 *
 *     addresses         of clocks
 *     addresses rest    of what is left of a sleep, on a counter of sleeps
 */
#define _GNU_SOURCE
#include <errno.h>
#include <signal.h>
#include <stdbool.h>
#include <stdio.h>
#include <stdlib.h>
#include <string.h>
#include <sys/mman.h>
#include <sys/syscall.h>
#include <sys/timex.h>
#include <sys/wait.h>
#include <time.h>
#include <unistd.h>

enum { PAGE = 4096, PATTERN = 0x5a };

/* Pages with these rights, and a page in front of them that can be written. */
static char *map_pages(int rights, int flags)
{
	char *pages = mmap(NULL, 3 * PAGE, PROT_READ | PROT_WRITE,
			   MAP_ANONYMOUS | flags, -1, 0);

	if (pages == MAP_FAILED)
		exit(EXIT_FAILURE);
	memset(pages, PATTERN, 3 * PAGE);
	if (mprotect(pages + PAGE, 2 * PAGE, rights))
		exit(EXIT_FAILURE);
	return pages + PAGE;
}

static bool is_unchanged(const char *bytes, size_t size)
{
	for (size_t i = 0; i < size; i++) {
		if (bytes[i] != PATTERN)
			return false;
	}
	return true;
}

static void expect(const char *name, long result, int error)
{
	if (result == (error ? -1 : 0) && (!error || errno == error))
		return;
	printf("%s: result %ld, errno %d\n", name, result, errno);
}

/* A read to an address fails and changes nothing. */
static void fails(const char *name, char *address)
{
	expect(name, syscall(SYS_clock_gettime, CLOCK_REALTIME, address),
	       EFAULT);
}

static void test_rights(int flags)
{
	char *none = map_pages(PROT_NONE, flags);
	char *readable = map_pages(PROT_READ, flags);

	fails("PROT_NONE", none);
	fails("PROT_READ", readable + 100);
	fails("from a page into PROT_READ", readable - 8);
	expect("the last bytes before PROT_READ",
	       syscall(SYS_clock_gettime, CLOCK_REALTIME, readable - sizeof(struct timespec)),
	       0);
	mprotect(none, 2 * PAGE, PROT_READ);
	if (!is_unchanged(none, 2 * PAGE) ||
	    !is_unchanged(readable, 2 * PAGE))
		printf("bytes that can't be written have changed\n");
}

static void test_writable(int flags)
{
	char *pages = map_pages(PROT_READ | PROT_WRITE, flags);
	struct timespec now, written;

	/* two areas */
	mprotect(pages, PAGE, PROT_READ | PROT_WRITE | PROT_EXEC);
	expect("into two areas",
	       syscall(SYS_clock_gettime, CLOCK_REALTIME, pages - 8), 0);
	memcpy(&written, pages - 8, sizeof(written));
	syscall(SYS_clock_gettime, CLOCK_REALTIME, &now);
	if (now.tv_sec - written.tv_sec > 100 || now.tv_sec < written.tv_sec)
		printf("into two areas: another time\n");
}

static void on_signal(int number)
{
	(void)number;
}

/* Sends a signal to a process after a second. A counter of sleeps moves only when tkrun has read of
 * that process's own sleep. */
static void interrupt(pid_t process)
{
	struct timespec span = { 1, 0 };

	syscall(SYS_nanosleep, &span, NULL);
	kill(process, SIGUSR1);
	_exit(0);
}

static void sleep_until_signal(const char *name, char *rest, int error)
{
	struct timespec span = { 1000, 0 };
	pid_t sleeper = getpid();

	if (!fork())
		interrupt(sleeper);
	expect(name, syscall(SYS_nanosleep, &span, rest), error);
	while (wait(NULL) > 0)
		;
}

/* A signal interrupts a sleep whose rest can't be stored. */
static void test_rest(void)
{
	struct sigaction action = { .sa_handler = on_signal };

	sigaction(SIGUSR1, &action, NULL);
	sleep_until_signal("a rest at NULL", NULL, EINTR);
	sleep_until_signal("a rest at an address of the kernel", (char *)-PAGE, EFAULT);
	sleep_until_signal("a rest in PROT_READ", map_pages(PROT_READ, MAP_PRIVATE), EFAULT);
}

int main(int count, char **words)
{
	struct timex request = { 0 };

	if (count > 1 && !strcmp(words[1], "rest")) {
		test_rest();
		return 0;
	}
	fails("NULL", NULL);
	fails("an address of the kernel", (char *)-PAGE);
	fails("the last address", (char *)-1);
	for (int i = 0; i < 2; i++) {
		test_rights(i ? MAP_SHARED : MAP_PRIVATE);
		test_writable(i ? MAP_SHARED : MAP_PRIVATE);
	}
	expect("adjtimex of NULL", syscall(SYS_adjtimex, NULL), EFAULT);
	if (syscall(SYS_adjtimex, &request) < 0)
		printf("adjtimex: errno %d\n", errno);
	return 0;
}
