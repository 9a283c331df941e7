/* SPDX-License-Identifier: MIT OR Apache-2.0 */
/* The job now_host of crates/tk_bench_threads as bare calls of clock_gettime, which is the counter of
   that job. turns.rs in bench/peer_page describes the words and lines. */
#define _GNU_SOURCE
#include <stdint.h>
#include <stdio.h>
#include <string.h>
#include <time.h>

enum { TURNS = 2, CALLS = 3000000 };

static const char *const job = "now_host";

static uint64_t nanoseconds(void) {
    struct timespec now;
    clock_gettime(CLOCK_MONOTONIC, &now);
    return (uint64_t)now.tv_sec * 1000000000 + (uint64_t)now.tv_nsec;
}

/* The number of answers that aren't below the one before. */
static uint64_t answers(uint64_t count) {
    uint64_t last = 0, check = 0;
    for (uint64_t i = 0; i < count; i++) {
        uint64_t now = nanoseconds();
        check += now >= last;
        last = now;
    }
    return check;
}

int main(int count, char **words) {
    int is_timed = count > 1, is_asked = count <= 2;
    for (int i = 2; i < count; i++)
        is_asked |= !strcmp(words[i], job);
    if (is_timed && strcmp(words[1], "time"))
        return 2;
    if (!is_asked)
        return 0;
    uint64_t calls = is_timed ? CALLS : CALLS / 1000, check = 0, least = UINT64_MAX;
    for (int i = 0; i < TURNS; i++) {
        uint64_t start = nanoseconds();
        check = answers(calls);
        uint64_t time = nanoseconds() - start;
        least = time < least ? time : least;
    }
    if (is_timed)
        printf("%s\t%.3f\tns/time\t%llu\n", job, (double)least / calls, (unsigned long long)check);
    else
        printf("%s\t%llu\n", job, (unsigned long long)check);
    return 0;
}
