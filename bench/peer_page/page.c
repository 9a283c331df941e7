/* SPDX-License-Identifier: MIT OR Apache-2.0 */
/* A page of ten words in C, with a version word that is odd during a write. Its publications are
   sequentially consistent stores; its reads are loads with the weakest ordering that is correct. */
#include "jobs.h"
#include <stdlib.h>
#include <string.h>

struct page {
    _Atomic uint64_t version;
    _Atomic uint64_t words[WORDS];
    struct plain_clock clock;
};

static void publish(struct page *page, const uint64_t words[WORDS]) {
    uint64_t version = atomic_load(&page->version);
    while (version % 2 || !atomic_compare_exchange_strong(&page->version, &version, version + 1))
        version = atomic_load(&page->version);
    for (int i = 0; i < WORDS; i++)
        atomic_store(&page->words[i], words[i]);
    atomic_store(&page->version, version + 2);
}

static bool look(struct page *page, uint64_t words[WORDS]) {
    uint64_t version = atomic_load_explicit(&page->version, memory_order_acquire);
    for (int i = 0; i < WORDS; i++)
        words[i] = atomic_load_explicit(&page->words[i], memory_order_relaxed);
    atomic_thread_fence(memory_order_acquire);
    uint64_t after = atomic_load_explicit(&page->version, memory_order_relaxed);
    return version % 2 == 0 && after == version;
}

/* A page over clocks that were just opened. */
static struct page *opened(void) {
    struct page *page = calloc(1, sizeof *page);
    uint64_t words[WORDS];
    if (!page)
        abort();
    page->clock = opened_clock();
    plain_words(words, &page->clock);
    publish(page, words);
    return page;
}

static void update(void *of) {
    struct page *page = of;
    uint64_t words[WORDS];
    update_clock(&page->clock, words);
    publish(page, words);
}

static struct turn timed_reads(struct page *page, uint64_t count) {
    uint64_t check = 0, words[WORDS];
    double start = nanoseconds();
    for (uint64_t i = 0; i < count; i++) {
        while (!look(page, words))
            ;
        check += weight(words);
    }
    return (struct turn){nanoseconds() - start, count, check};
}

struct turn page_read(uint64_t part) {
    struct page *page = opened();
    update(page);
    struct turn turn = timed_reads(page, READS / part);
    free(page);
    return turn;
}

struct turn page_read_beside(uint64_t part) {
    struct page *page = opened();
    struct slow slow = {.update = update, .of = page};
    start_slow(&slow);
    struct turn turn = timed_reads(page, READS / part);
    stop_slow(&slow);
    free(page);
    return turn;
}

struct turn page_publish(uint64_t part) {
    struct page *page = opened();
    uint64_t count = PUBLICATIONS / part, words[WORDS];
    double start = nanoseconds();
    for (uint64_t i = 0; i < count; i++)
        update(page);
    double nanos = nanoseconds() - start;
    while (!look(page, words))
        ;
    free(page);
    return (struct turn){nanos, count, weight(words) * 31 + words[0]};
}
