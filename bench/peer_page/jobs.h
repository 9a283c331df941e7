/* SPDX-License-Identifier: MIT OR Apache-2.0 */
/* Jobs of crates/tk_bench_threads in C, and the declarations that they share. */
#pragma once
#include "../c/plain.h"
#include <pthread.h>
#include <stdatomic.h>
#include <stdbool.h>
#include <stdint.h>

enum { WORDS = PLAIN_WORDS, READS = 10000000, PUBLICATIONS = 1000000, UPDATES = 10000000 };

/* The result of a turn: its time, the number of repetitions, and a number that is computed from the
   results. */
struct turn {
    double nanos;
    uint64_t count, check;
};

/* Opens clocks with a counter of 32 bits at 1 ns per cycle. It is not inlined, so that the compiler
   cannot know their numbers. */
struct plain_clock opened_clock(void);

/* Updates clocks one step after the last update, and stores their words. Aborts if the update is
   refused. */
void update_clock(struct plain_clock *clock, uint64_t words[WORDS]);

/* All ten words in one number, which is the same for every update. Neighbouring words get different
   operations, so that they aren't loaded two at once. */
static inline uint64_t weight(const uint64_t w[WORDS]) {
    return w[1] - w[0] * 1000 + w[2] + (w[3] ^ w[8]) + (w[4] - w[9]) + (w[5] ^ w[6]) + w[7];
}

double nanoseconds(void);

/* A thread that calls update a thousand times per second, until it is stopped. */
struct slow {
    pthread_t thread;
    void (*update)(void *of);
    void *of;
    atomic_bool enough;
};

void start_slow(struct slow *slow);
void stop_slow(struct slow *slow);

/* The jobs. Each does the given part of a full turn: all of it for 1, a thousandth for 1000. */
struct turn page_read(uint64_t part), page_read_beside(uint64_t part), page_publish(uint64_t part);
struct turn latch_read(uint64_t part), latch_read_beside(uint64_t part);
struct turn latch_publish(uint64_t part);
struct turn unpublished(uint64_t part), in_memory(uint64_t part);
