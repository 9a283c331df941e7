/* SPDX-License-Identifier: MIT OR Apache-2.0 */
/* Clocks that each update moves on by one step. */
#include "jobs.h"
#include <stdlib.h>

enum { STEP = 1000 };

/* The number of updates in one opening. The counter does not wrap on the way. */
enum { UPDATES_LIMIT = 1000000 };

__attribute__((noinline)) struct plain_clock opened_clock(void) {
    return (struct plain_clock){
        .mult = 16777216,
        .raw_mult = 16777216,
        .shift = 24,
        .mask = 0xffffffff,
        .real_offset = 1700000000000000000,
    };
}

void update_clock(struct plain_clock *clock, uint64_t words[WORDS]) {
    if (plain_update(clock, (clock->front + 1) * STEP))
        abort();
    plain_words(words, clock);
}

/* Keeps what is at this address in memory: the compiler must take it as read and written here. */
static inline void keep_in_memory(void *at) { __asm__ volatile("" : : "r"(at) : "memory"); }

static inline struct turn updated(uint64_t part, bool in_memory) {
    uint64_t count = UPDATES / part, check = 0, words[WORDS];
    uint64_t each = count < UPDATES_LIMIT ? count : UPDATES_LIMIT;
    double start = nanoseconds();
    for (uint64_t n = 0; n < count / each; n++) {
        struct plain_clock clock = opened_clock();
        for (uint64_t i = 0; i < each; i++) {
            if (in_memory)
                keep_in_memory(&clock);
            update_clock(&clock, words);
            check += weight(words);
        }
    }
    return (struct turn){nanoseconds() - start, count, check};
}

struct turn unpublished(uint64_t part) { return updated(part, false); }

struct turn in_memory(uint64_t part) { return updated(part, true); }
