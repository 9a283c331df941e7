/* SPDX-License-Identifier: MIT OR Apache-2.0 */
/* The jobs of crates/tk_bench_threads on pages, latches and clocks alone, in C. turns.rs in this
   folder describes the words and lines. */
#define _GNU_SOURCE
#include "jobs.h"
#include <stdio.h>
#include <stdlib.h>
#include <string.h>
#include <time.h>

enum { TURNS = 2 };

static const struct job {
    const char *name, *unit;
    struct turn (*turn)(uint64_t part);
} jobs[] = {
    {"page_read", "ns/read", page_read},
    {"page_read_beside", "ns/read", page_read_beside},
    {"page_publish", "ns/publication", page_publish},
    {"latch_read", "ns/read", latch_read},
    {"latch_read_beside", "ns/read", latch_read_beside},
    {"latch_publish", "ns/publication", latch_publish},
    {"update_unpublished", "ns/command", unpublished},
    {"update_in_memory", "ns/command", in_memory},
};

double nanoseconds(void) {
    struct timespec now;
    clock_gettime(CLOCK_MONOTONIC, &now);
    return now.tv_sec * 1e9 + now.tv_nsec;
}

static void *slowly(void *given) {
    struct slow *slow = given;
    while (!atomic_load(&slow->enough)) {
        slow->update(slow->of);
        nanosleep(&(struct timespec){0, 1000000}, NULL);
    }
    return NULL;
}

void start_slow(struct slow *slow) {
    if (pthread_create(&slow->thread, NULL, slowly, slow))
        abort();
}

void stop_slow(struct slow *slow) {
    atomic_store(&slow->enough, true);
    pthread_join(slow->thread, NULL);
}

static bool is_asked(const char *name, int count, char **names) {
    for (int i = 0; i < count; i++)
        if (!strcmp(names[i], name))
            return true;
    return count == 0;
}

int main(int count, char **words) {
    bool is_timed = count > 1;
    int status = 0;
    if (is_timed && strcmp(words[1], "time"))
        return 2;
    for (size_t i = 0; i < sizeof jobs / sizeof *jobs; i++) {
        const struct job *job = &jobs[i];
        if (is_timed && !is_asked(job->name, count - 2, words + 2))
            continue;
        struct turn best = {0};
        for (int n = 0; n < TURNS; n++) {
            struct turn turn = job->turn(is_timed ? 1 : 1000);
            if (n && turn.check != best.check)
                status = 1;
            if (n == 0 || turn.nanos < best.nanos)
                best = turn;
        }
        if (is_timed)
            printf("%s\t%.3f\t%s\t%llu\n", job->name, best.nanos / best.count, job->unit,
                   (unsigned long long)best.check);
        else
            printf("%s\t%llu\n", job->name, (unsigned long long)best.check);
    }
    return status;
}
