/* SPDX-License-Identifier: MIT OR Apache-2.0 */
/* A latch of ten words in C. Reads have the weakest ordering that is correct; publications are
   sequentially consistent stores. */
#include "jobs.h"
#include <stdlib.h>

struct latch {
    _Atomic uint64_t sequence;
    _Atomic uint64_t copies[2][WORDS];
    struct plain_clock clock;
};

static bool try_read(struct latch *latch, uint64_t words[WORDS]) {
    uint64_t first = atomic_load_explicit(&latch->sequence, memory_order_acquire);
    for (int i = 0; i < WORDS; i++)
        words[i] = atomic_load_explicit(&latch->copies[first & 1][i], memory_order_relaxed);
    atomic_thread_fence(memory_order_acquire);
    return atomic_load_explicit(&latch->sequence, memory_order_relaxed) == first;
}

static void publish(struct latch *latch, const uint64_t words[WORDS]) {
    uint64_t sequence = atomic_load_explicit(&latch->sequence, memory_order_relaxed);
    atomic_store(&latch->sequence, sequence + 1);
    for (int i = 0; i < WORDS; i++)
        atomic_store(&latch->copies[0][i], words[i]);
    atomic_store(&latch->sequence, sequence + 2);
    for (int i = 0; i < WORDS; i++)
        atomic_store(&latch->copies[1][i], words[i]);
}

/* A latch over clocks that were just opened. */
static struct latch *opened(void) {
    struct latch *latch = calloc(1, sizeof *latch);
    uint64_t words[WORDS];
    if (!latch)
        abort();
    latch->clock = opened_clock();
    plain_words(words, &latch->clock);
    for (int i = 0; i < WORDS; i++)
        latch->copies[0][i] = latch->copies[1][i] = words[i];
    return latch;
}

static void update(void *of) {
    struct latch *latch = of;
    uint64_t words[WORDS];
    update_clock(&latch->clock, words);
    publish(latch, words);
}

/* Times reads. A read that failed because of a publication counts with the usual weight. */
static struct turn timed_reads(struct latch *latch, uint64_t usual, uint64_t count) {
    uint64_t check = 0, words[WORDS];
    double start = nanoseconds();
    for (uint64_t i = 0; i < count; i++)
        check += try_read(latch, words) ? weight(words) : usual;
    return (struct turn){nanoseconds() - start, count, check};
}

struct turn latch_read(uint64_t part) {
    struct latch *latch = opened();
    update(latch);
    struct turn turn = timed_reads(latch, 0, READS / part);
    free(latch);
    return turn;
}

struct turn latch_read_beside(uint64_t part) {
    struct latch *latch = opened();
    uint64_t words[WORDS];
    if (!try_read(latch, words))
        abort();
    struct slow slow = {.update = update, .of = latch};
    start_slow(&slow);
    struct turn turn = timed_reads(latch, weight(words), READS / part);
    stop_slow(&slow);
    free(latch);
    return turn;
}

struct turn latch_publish(uint64_t part) {
    struct latch *latch = opened();
    uint64_t count = PUBLICATIONS / part, words[WORDS];
    double start = nanoseconds();
    for (uint64_t i = 0; i < count; i++)
        update(latch);
    double nanos = nanoseconds() - start;
    if (!try_read(latch, words))
        abort();
    free(latch);
    return (struct turn){nanos, count, weight(words) * 31 + words[0]};
}
