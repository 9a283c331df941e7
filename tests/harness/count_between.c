/* SPDX-License-Identifier: MIT OR Apache-2.0 */
/* A library that counts the requests for memory between two marks, in the program into which
 * LD_PRELOAD loads it. A mark is itself a request, of a size that nothing else asks for. The gate
 * in `marks.rt` of tk_replay_tests makes the first mark before a piece of work and the second mark
 * after it, on the thread that does the work.
 *
 * The program ends with status 3 and one line if a thread reaches a mark out of turn, if it makes
 * no request between the two, or if it makes another number of them than there were in the first
 * pair of all threads. Otherwise it writes a line for each pair.
 * tools/check_program builds this library. It needs glibc. */
#include <stddef.h>
#include <stdio.h>
#include <unistd.h>

extern void *__libc_malloc(size_t size);
extern void *__libc_calloc(size_t count, size_t size);
extern void *__libc_realloc(void *block, size_t size);

enum { FIRST_MARK = 77777, SECOND_MARK = 99991, OUTSIDE = -1 };

/* The requests of this thread since its first mark, or OUTSIDE. */
static __thread long between = OUTSIDE;

/* The requests between the first pair of marks, 0 before there is one. */
static long wanted;

static void fail(const char *why, long found)
{
    dprintf(STDERR_FILENO, "count_between: %s: %ld requests, and %ld between the first pair\n", why,
            found, wanted);
    _exit(3);
}

static void end_pair(long found)
{
    long before = 0;

    if (found == OUTSIDE)
        fail("a second mark without its first", 0);
    if (found == 0)
        fail("nothing between two marks", 0);
    if (!__atomic_compare_exchange_n(&wanted, &before, found, 0, __ATOMIC_SEQ_CST,
                                     __ATOMIC_SEQ_CST) && before != found)
        fail("another number between two marks", found);
    dprintf(STDERR_FILENO, "count_between: a pair with %ld requests\n", found);
}

static void count(size_t size)
{
    if (size == FIRST_MARK && between != OUTSIDE)
        fail("a first mark after a first mark", between);
    if (size == SECOND_MARK)
        end_pair(between);
    if (size == FIRST_MARK)
        between = 0;
    else if (size == SECOND_MARK)
        between = OUTSIDE;
    else if (between != OUTSIDE)
        between++;
}

void *malloc(size_t size)
{
    count(size);
    return __libc_malloc(size);
}

void *calloc(size_t items, size_t size)
{
    count(items * size);
    return __libc_calloc(items, size);
}

void *realloc(void *block, size_t size)
{
    count(size);
    return __libc_realloc(block, size);
}
