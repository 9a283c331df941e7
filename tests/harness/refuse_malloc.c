/* SPDX-License-Identifier: MIT OR Apache-2.0 */
/* A library that refuses requests of the program into which LD_PRELOAD loads it. The environment
 * says which:
 *
 *   REFUSE=N           the Nth request for memory, counted from 1 over all threads, and no other
 *   REFUSE_FIRST=N     the Nth request for memory that the program's first thread makes outside of
 *                      pthread_create
 *   REFUSE_STARTING=N  the Nth request for memory that is made inside pthread_create, by any thread
 *   REFUSE_OTHERS=N    the Nth other request for memory, over all threads but the first
 *   REFUSE_THREADS=N   the Nth request for a thread, and every later one
 *   HOLD_STARTED=1     no request: each thread that is started waits before it does anything, until the
 *                      thread that started it sleeps
 *   REFUSE_MARK=PATH   the file that is made when a request is refused. A caller can count N up until
 *                      a run leaves no such file
 *
 * What the other threads do, and when they end, changes no number of REFUSE_FIRST: a pthread_create
 * asks for less memory if it finds the stack of a thread that has ended.
 *
 * tests/harness/refuse_each.sh and tests/harness/refuse_tests build it. It needs glibc. */
#define _GNU_SOURCE
#include <dlfcn.h>
#include <errno.h>
#include <fcntl.h>
#include <pthread.h>
#include <sched.h>
#include <stddef.h>
#include <stdio.h>
#include <stdlib.h>
#include <string.h>
#include <unistd.h>

extern void *__libc_malloc(size_t size);
extern void *__libc_calloc(size_t count, size_t size);
extern void *__libc_realloc(void *block, size_t size);

typedef int pthread_create_fn(pthread_t *, const pthread_attr_t *, void *(*)(void *), void *);

/* The kinds of requests for memory. */
enum kind { ANY, FIRST, STARTING, OTHERS, KINDS };

static const char *const kind_names[KINDS] = {"REFUSE", "REFUSE_FIRST", "REFUSE_STARTING",
                                              "REFUSE_OTHERS"};

/* Of each kind, the number of the refused request, 0 if none is refused, and the number of requests
 * that were made. */
static long refused[KINDS], requests[KINDS];
static long first_refused_thread, threads, is_holding;

static const char *mark;
static pthread_create_fn *next_pthread_create;

/* Whether this thread is the program's first one, and whether it is starting another one. */
static __thread int is_first, is_starting;

static long number_of(const char *name)
{
    const char *text = getenv(name);

    return text ? atol(text) : 0;
}

__attribute__((constructor)) static void read_environment(void)
{
    next_pthread_create = (pthread_create_fn *)dlsym(RTLD_NEXT, "pthread_create");
    mark = getenv("REFUSE_MARK");
    first_refused_thread = number_of("REFUSE_THREADS");
    is_holding = number_of("HOLD_STARTED");
    is_first = 1;
    for (int kind = 0; kind < KINDS; kind++) {
        requests[kind] = 0;
        refused[kind] = number_of(kind_names[kind]);
    }
}

static void leave_mark(void)
{
    int file;

    if (!mark)
        return;
    file = open(mark, O_WRONLY | O_CREAT | O_CLOEXEC, 0600);
    if (file < 0 || close(file))
        abort();
}

/* Counts a request, and returns whether it is the refused one of this kind. */
static int is_refused_of(enum kind kind)
{
    long number = __atomic_add_fetch(&requests[kind], 1, __ATOMIC_SEQ_CST);

    return refused[kind] && number == refused[kind];
}

static int is_refused(void)
{
    enum kind kind = is_starting ? STARTING : is_first ? FIRST : OTHERS;
    int is_one_of_all = is_refused_of(ANY);

    if (!is_refused_of(kind) && !is_one_of_all)
        return 0;
    leave_mark();
    errno = ENOMEM;
    return 1;
}

void *malloc(size_t size)
{
    return is_refused() ? NULL : __libc_malloc(size);
}

void *calloc(size_t count, size_t size)
{
    return is_refused() ? NULL : __libc_calloc(count, size);
}

void *realloc(void *block, size_t size)
{
    return is_refused() ? NULL : __libc_realloc(block, size);
}

/* Whether this thread of the process sleeps. */
static int is_asleep(pid_t thread)
{
    char path[64], text[256];
    const char *state;
    ssize_t length;
    int file;

    snprintf(path, sizeof path, "/proc/self/task/%d/stat", (int)thread);
    file = open(path, O_RDONLY | O_CLOEXEC);
    if (file < 0)
        abort();
    length = read(file, text, sizeof text - 1);
    if (close(file) || length < 0)
        abort();
    text[length] = '\0';
    /* the state follows the name, which is in parentheses */
    state = strrchr(text, ')');
    return state && strncmp(state, ") S", 3) == 0;
}

/* The start of a thread that is held until its starter sleeps. */
struct held {
    pid_t starter;
    void *(*start)(void *);
    void *argument;
};

static void *start_held(void *argument)
{
    struct held held = *(struct held *)argument;

    free(argument);
    while (!is_asleep(held.starter))
        sched_yield();
    return held.start(held.argument);
}

static int create_held(pthread_t *thread, const pthread_attr_t *attributes,
                       void *(*start)(void *), void *argument)
{
    struct held *held = __libc_malloc(sizeof *held);

    if (!held)
        abort();
    *held = (struct held){gettid(), start, argument};
    return next_pthread_create(thread, attributes, start_held, held);
}

int pthread_create(pthread_t *thread, const pthread_attr_t *attributes, void *(*start)(void *),
                   void *argument)
{
    long number = __atomic_add_fetch(&threads, 1, __ATOMIC_SEQ_CST);

    int error = EAGAIN;

    is_starting = 1;
    if (first_refused_thread && number >= first_refused_thread)
        leave_mark();
    else if (is_holding)
        error = create_held(thread, attributes, start, argument);
    else
        error = next_pthread_create(thread, attributes, start, argument);
    is_starting = 0;
    return error;
}
