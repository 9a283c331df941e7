/* SPDX-License-Identifier: MIT OR Apache-2.0 */
/*
 * host.c - the functions in C that a program in Rattle calls besides the C library's own. The
 * toolchain links its own ones; this file is for a program that is built from its text.
 */
#include <errno.h>
#include <stdbool.h>
#include <stddef.h>
#include <stdint.h>
#include <stdlib.h>
#include <string.h>

/* Whether there is memory, and where; `p` is never NULL. */
struct tried {
	bool ok;
	void *p;
};

static char nothing;
static int count;
static char **words;

static struct tried tried(void *p)
{
	return (struct tried){ p != NULL, p ? p : &nothing };
}

/* Allocates `size` bytes, or some if `size` is 0. `align` divides 16, as malloc's own does. */
struct tried rattle_alloc(size_t size, size_t align)
{
	return tried(malloc(size ? size : align));
}

struct tried rattle_realloc(void *p, size_t kept, size_t size, size_t align)
{
	(void)kept;
	return tried(realloc(p, size ? size : align));
}

void rattle_dealloc(void *p)
{
	free(p);
}

int rattle_errno(void)
{
	return errno;
}

void rattle_set_errno(int error)
{
	errno = error;
}

/* Keeps the arguments, which glibc passes to each constructor. */
__attribute__((constructor)) static void keep_arguments(int argc, char **argv)
{
	count = argc;
	words = argv;
}

size_t rattle_arg_count(void)
{
	return (size_t)count;
}

/* Writes argument `i` without its end, and returns its length: -1 if there is no such argument, -2
 * if it is longer than `room`. */
ptrdiff_t rattle_arg(size_t i, char *out, size_t room)
{
	size_t length;

	if (i >= (size_t)count || !words[i])
		return -1;
	length = strlen(words[i]);
	memcpy(out, words[i], length < room ? length : room);
	return length <= room ? (ptrdiff_t)length : -2;
}
