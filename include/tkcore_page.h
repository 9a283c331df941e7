/* SPDX-License-Identifier: MIT OR Apache-2.0 */
/*
 * tkcore_page.h - a page and a latch that publish snapshots of tkcore.h to readers without a lock.
 *
 * Both are plain memory, which processes may share. One writer at a time publishes, and any number
 * of readers read; a reader needs only read access. The header needs C11 or C++11, whose atomics
 * have the same layout. It isn't for kernels, which have their own (seqcount_t, seqcount_latch_t).
 *
 *     tkc_page_init_clock(&page, &clock);                  before any reader has the page
 *
 *     tkc_page_begin(&page);                               the writer, for each command
 *     code = tkc_clock_update(&clock, read_counter(NULL));
 *     tkc_page_publish_clock(&page, &clock);               also if the command was refused
 *
 *     code = tkc_page_now(&page, TKC_CLOCK_MONOTONIC, read_counter, NULL, &time);     a reader
 *
 * Which one
 *   - A page: MONOTONIC never goes back for any reader, if the clocks get a command at least once
 *     in each half of the counter's range (tkcore.h, "Limits"). For this the writer reads the
 *     counter after tkc_page_begin, and tkc_page_now reads it before the reader's second load of
 *     the sequence. Over snapshots of a tkc_ntp it may go back, unless the writer first calls
 *     tkc_ntp_advance_late: the commands of other calls may be earlier than their reading. A reader
 *     waits while a writer is inside, that is between tkc_page_begin and tkc_page_publish. So a
 *     handler that may interrupt the writer must not wait: it may call tkc_page_try_now, which
 *     returns TKC_BUSY.
 *   - A latch: a reader never waits for a writer that it interrupted, so an NMI or a signal handler
 *     may read it. MONOTONIC may go back by the change of the rate times the time since the
 *     writer's reading (as in ktime_get_mono_fast_ns in kernel/time/timekeeping.c).
 *   A writer that has both publishes on the page first.
 *   If readers run on other processors, give the page and the latch their own cache lines, by
 *   alignas(64), or _Alignas(64) in C before C23. Put no other data into their last line.
 *
 * Readers that keep a line
 *   tkc_page_now and tkc_latch_now load, validate and convert the words at each read. A
 *   tkc_page_reader or a tkc_latch_reader keeps the line of one clock (tkc_snapshot_line), and loads
 *   the words only if the sequence has changed since it made this line. So most reads load the
 *   sequence twice, read the counter and multiply once, as the kernel's vDSO does:
 *
 *     code = tkc_page_reader_init(&reader, &page, TKC_CLOCK_MONOTONIC);       for each thread
 *     code = tkc_page_reader_get(&reader, read_counter, NULL, &time);
 *
 *   - Each answer and each code is the one of tkc_page_now or tkc_latch_now at the same reading.
 *   - A read writes into its reader. So each thread needs its own one, and so does each handler
 *     that may interrupt a read.
 *   - A sequence at rest selects one publication for good, unless 2^63 publications come between
 *     two reads. If tkc_page_init or tkc_latch_init makes the memory anew, make its readers anew.
 *
 * If the writer dies
 *   A writer may die at any instruction. Readers then see what its last store left:
 *   - In tkc_page_init or tkc_latch_init: tkc_page_attach or tkc_latch_attach returns
 *     TKC_BAD_LAYOUT.
 *   - Inside a page: readers wait until there is a new writer, and tkc_page_try_now returns
 *     TKC_BUSY. The last snapshot that was published is still whole.
 *   - At any other place, readers of the page get the last snapshot that was published.
 *   - In tkc_latch_publish while the sequence is odd: readers of the latch get the former snapshot,
 *     in copy 1. After the sequence is even again they get the new one, in copy 0. They never wait.
 *   No reader gets a mixture of two snapshots. A new writer must know that the former one is dead:
 *   pthread_mutex_trylock of a robust mutex returns EOWNERDEAD, for example. Repeat it with naps
 *   between the tries, and don't wait in pthread_mutex_lock. An unlock wakes one waiter. If that
 *   waiter is killed before it takes the lock, and a third process has taken it, the third one
 *   doesn't know of the other waiters and wakes none of them.
 *   Before a new writer publishes anything it takes over:
 *
 *     if (tkc_page_clock(&page, &clock))                   or with clocks that it has
 *             return -1;
 *     tkc_page_recover(&page, &clock);
 *     tkc_latch_recover(&latch, &clock);
 *
 *   tkc_page_clock rebuilds the clocks of the last publication, so MONOTONIC doesn't go back for
 *   readers of the page. A command after that publication is lost; no reader of the page has seen
 *   it. Since the page is published first, its clocks are at least as new as the latch's. With
 *   clocks from elsewhere MONOTONIC may go back. Without tkc_latch_recover, readers of the latch
 *   may get a mixture of two snapshots while the new writer publishes. If the new writer dies too,
 *   even in these calls, the next one takes over in the same way.
 *
 * What is proved
 *   Nothing in this header is proved. The crates tk_page, tk_latch and tk_now are, and the steps
 *   below are theirs, with these differences:
 *   - In the crates, a reader reads the counter after it has read the page or the latch, between
 *     two loads of a separate word, the notice (tk_now). A command makes the notice odd before it
 *     reads the counter. Here there is no notice. tkc_page_now and tkc_latch_now read the counter
 *     between the two loads of the sequence. tkc_page_begin makes the page's sequence odd before
 *     the command reads the counter; nothing does that for a latch.
 *   - A page has two copies, and a writer writes the one that isn't read. tk_page has one copy.
 *   - Each copy contains its counter. A page or a latch of the crates has one counter for good.
 *   - After a failed try, a reader tries again. A reader of tk_page then takes the page for itself,
 *     and tk_latch returns Moved.
 *   - Loads, stores and fences have a weaker order. In the crates all are sequentially consistent.
 *   - A latch stores all words. tk_latch stores only the words that changed.
 *   - No writer of the crates dies. The section above is only tested.
 *   - No reader of the crates keeps words or a line from one read to the next.
 *   Each read passes the words that it loads to tkc_counter_new and tkc_snapshot_from_words, which
 *   validate them. So neither a fault in this header nor another process that overwrites the memory
 *   can produce an invalid snapshot.
 *
 * The counter
 *   read_counter(context) returns a reading. The function must read the counter after the loads
 *   that precede its call and before the loads that follow it. If the processor may reorder the
 *   reading, the function must prevent that:
 *   - x86-64: tkc_tsc_for_reader and tkc_tsc_for_writer below, if the TSC is constant and the same on
 *     all processors. "lfence; rdtsc; lfence" serves both too, in 5 ns more: the last lfence keeps
 *     the second load of the sequence from running before the reading.
 *   - AArch64: tkc_cntvct_for_reader and tkc_cntvct_for_writer below read CNTVCT_EL0. A fence of
 *     C11 orders no store before a read of this register, so a writer, after tkc_page_begin, needs
 *     the second one.
 *   - A device: a load that the device orders with memory.
 *
 * Another counter
 *   Each copy of a page or a latch contains the numbers of the counter next to the words of the
 *   snapshot. So after tkc_clock_change_counter the writer publishes the clocks as after a command,
 *   on the same page and latch:
 *
 *     tkc_page_begin(&page);
 *     reading = read_old(NULL);
 *     first = read_new(NULL);
 *     code = tkc_clock_change_counter(&clock, reading, &new_counter, first);
 *     tkc_page_publish_clock(&page, &clock);               also if the change was refused
 *
 *   Every reader then gets the snapshot with its own counter, in other processes too, and also if
 *   it attached before. No reader gets words of one counter with numbers of the other one.
 *   tkc_snapshot_counter returns the counter of a snapshot.
 *
 *   read_counter must return a reading of the snapshot's counter:
 *   - If both counters are the same register, nothing changes for a reader. An example is the TSC
 *     of a virtual machine that is moved. The register must change its rate and its reading while
 *     the clocks are asleep, or while the writer is inside.
 *   - Otherwise a reader reads both counters in one call of read_counter, and keeps both readings
 *     in its context. tkc_page_look or tkc_latch_look gives the snapshot, and tkc_snapshot_get
 *     takes the reading of its counter. A tkc_page_reader gives both by tkc_page_reader_look, and
 *     tkc_kept_get takes the reading. The numbers of the two counters must differ, or the reader
 *     can't decide which counter the snapshot is of.
 *   MONOTONIC doesn't go back over a change for readers of a page. tests/c/page_changes.c is an
 *   example.
 *
 * Codes
 *   TKC_BUSY and TKC_BAD_LAYOUT aren't in enum tkc_code, because no call of the library returns
 *   them. A call that may return one of them returns a uint32_t, and otherwise an enum tkc_code.
 */
#ifndef TKCORE_PAGE_H
#define TKCORE_PAGE_H

#include "tkcore.h"

#ifdef __cplusplus
#include <atomic>
typedef std::atomic<uint64_t> tkc_word;
#define TKC_ZEROS {}
#define TKC_LOAD(word, order) (word)->load(std::memory_order_##order)
#define TKC_STORE(word, value, order) (word)->store((value), std::memory_order_##order)
#define TKC_FENCE(order) std::atomic_thread_fence(std::memory_order_##order)
#else
#include <stdatomic.h>
typedef _Atomic uint64_t tkc_word;
#define TKC_ZEROS { 0 }
#define TKC_LOAD(word, order) atomic_load_explicit((word), memory_order_##order)
#define TKC_STORE(word, value, order) atomic_store_explicit((word), (value), memory_order_##order)
#define TKC_FENCE(order) atomic_thread_fence(memory_order_##order)
#endif

/* With -fsanitize=thread, which doesn't follow fences, gcc warns of each one (-Wtsan). */
#if defined(__SANITIZE_THREAD__) && defined(__GNUC__) && !defined(__clang__)
#undef TKC_FENCE
#ifdef __x86_64__
#define TKC_FENCE(order) __asm__ __volatile__("mfence" ::: "memory")
#else
#define TKC_FENCE(order) __asm__ __volatile__("dmb ish" ::: "memory")
#endif
#endif

/* A function that most reads don't call stays out of the code that calls it. */
#ifdef __GNUC__
#define TKC_SELDOM static __attribute__((noinline, cold, unused))
#else
#define TKC_SELDOM static inline
#endif

/* Lets the other thread of a core run while a reader waits. */
#if defined(__GNUC__) && defined(__x86_64__)
#define TKC_PAUSE() __builtin_ia32_pause()
#elif defined(__GNUC__) && defined(__aarch64__)
#define TKC_PAUSE() __asm__ __volatile__("isb" ::: "memory")
#else
#define TKC_PAUSE() ((void)0)
#endif

#if defined(__GNUC__) && defined(__x86_64__)
/* Reads the TSC after all loads before the call, and before all loads after it. Its own load has an
 * address that depends on the reading, and later loads come after this one. So unlike a second
 * lfence it holds up nothing else (arch_counter_enforce_ordering in the kernel's arch/arm64). */
static inline uint64_t tkc_tsc_for_reader(void *context)
{
	uint64_t reading;

	(void)context;
	__asm__ __volatile__("lfence; rdtsc; shlq $32, %%rdx; orq %%rdx, %0; movq %0, %%rdx; "
			     "shrq $63, %%rdx; movq (%%rsp,%%rdx), %%rdx"
			     : "=a"(reading)::"rdx", "cc", "memory");
	return reading;
}

/* Reads the TSC also after the fence that tkc_page_begin ends with. */
static inline uint64_t tkc_tsc_for_writer(void *context)
{
	uint64_t reading;

	(void)context;
	__asm__ __volatile__("lfence; rdtsc; shlq $32, %%rdx; orq %%rdx, %0"
			     : "=a"(reading)::"rdx", "cc", "memory");
	return reading;
}
#endif

#if defined(__GNUC__) && defined(__aarch64__)
/* Reads the virtual counter after all loads before the call, and before all loads after it. */
static inline uint64_t tkc_cntvct_for_reader(void *context)
{
	uint64_t reading;

	(void)context;
	__asm__ __volatile__("dsb ishld; isb; mrs %0, cntvct_el0; isb" : "=r"(reading)::"memory");
	return reading;
}

/* Reads the virtual counter also after all processors can see the stores before the call. */
static inline uint64_t tkc_cntvct_for_writer(void *context)
{
	uint64_t reading;

	(void)context;
	__asm__ __volatile__("dsb ish; isb; mrs %0, cntvct_el0; isb" : "=r"(reading)::"memory");
	return reading;
}
#endif

/* The layouts of this header: the bytes of "tkcpage" or "tkclatc", and a number that rises when the
 * struct or the meaning of its words changes. Number 2 publishes the counter with the words; number
 * 1 had one counter for good. */
#define TKC_PAGE_LAYOUT UINT64_C(0x746b637061676502)
#define TKC_LATCH_LAYOUT UINT64_C(0x746b636c61746302)

/* The codes of this header. enum tkc_code keeps the numbers 48 to 63 free for them. */

/* A writer was inside at each try. */
#define TKC_BUSY 48
/* The memory contains no page, or no latch, of this layout. */
#define TKC_BAD_LAYOUT 49

/* The 64-bit words of a latch's copy: those of a snapshot (tkc_snapshot_words), and the numbers of
 * its counter: bits, mult and shift (tkc_counter_numbers). */
#define TKC_LATCH_WORDS (TKC_WORDS + 3)

/* The 64-bit words of a page's copy: those of a latch, the frequency, and the tick, as
 * tkc_clock_save stores them. A tick of 0 means that only a snapshot was published. */
#define TKC_PAGE_WORDS TKC_SAVED_WORDS

/*
 * A page. The sequence is even at rest, and odd while a writer is inside. The copy to read is
 * sequence / 2 % 2.
 *   Writer: 1. makes the sequence odd, which selects the same copy.
 *           2. reads the counter and applies the command.
 *           3. writes the words of the other copy.
 *           4. makes the sequence even, which selects that copy.
 *   Reader: 5. loads the sequence for the first time. Starts again if it is odd.
 *           6. loads the words of the copy that the sequence selects, and reads the counter. A
 *              reader that keeps the line of this sequence only reads the counter.
 *           7. loads the sequence again. Starts again if it has changed.
 * It is 256 bytes, aligned to 8 bytes.
 */
struct tkc_page {
	tkc_word layout; /* TKC_PAGE_LAYOUT */
	tkc_word sequence;
	tkc_word copies[2][TKC_PAGE_WORDS];
};

/*
 * A latch: two copies, one of which is always whole. The copy to read is sequence & 1.
 *   Writer: 1. makes the sequence odd: readers take copy 1.
 *           2. writes copy 0.
 *           3. makes the sequence even: readers take copy 0.
 *           4. writes copy 1.
 *   Reader: 5. loads the sequence for the first time.
 *           6. loads the words of the copy that the sequence selects, and reads the counter. A
 *              reader that keeps the line of this sequence, which is even, only reads the counter.
 *           7. loads the sequence again. Starts again if it has changed.
 * It is 224 bytes, aligned to 8 bytes.
 */
struct tkc_latch {
	tkc_word layout; /* TKC_LATCH_LAYOUT */
	tkc_word sequence;
	tkc_word copies[2][TKC_LATCH_WORDS];
};

/*
 * A clock that a reader keeps. The sequence is the one that selected the snapshot's words, or odd if
 * there are none. Once a read has returned TKC_OK, the line and the snapshot are those of its
 * publication.
 */
struct tkc_kept {
	uint64_t sequence;
	struct tkc_line line;
	struct tkc_snapshot snapshot;
	uint32_t clock; /* enum tkc_clock_id */
	uint32_t padding;
};

/* A reader of a page, and one of a latch. Both are plain memory that only one thread uses. */
struct tkc_page_reader {
	const struct tkc_page *page;
	struct tkc_kept kept;
};

struct tkc_latch_reader {
	const struct tkc_latch *latch;
	struct tkc_kept kept;
};

/* Returns a counter's reading (see "The counter" above). */
typedef uint64_t tkc_read_counter(void *context);

static inline void tkc_words_store(tkc_word *copy, const uint64_t *words, int count)
{
	int i;

	for (i = 0; i < count; i++)
		TKC_STORE(&copy[i], words[i], relaxed);
}

static inline void tkc_words_load(const tkc_word *copy, uint64_t *words, int count)
{
	int i;

	for (i = 0; i < count; i++)
		words[i] = TKC_LOAD(&copy[i], relaxed);
}

/* Makes the snapshot that the words of a latch's copy, or the first of a page's, represent. */
static inline enum tkc_code tkc_words_checked(struct tkc_snapshot *out, const uint64_t *words)
{
	const uint64_t *numbers = words + TKC_WORDS;
	struct tkc_counter counter;
	enum tkc_code code;

	if ((numbers[0] | numbers[1] | numbers[2]) >> 32)
		return TKC_BAD_WORDS;
	code = tkc_counter_new(&counter, (uint32_t)numbers[0], (uint32_t)numbers[1],
			       (uint32_t)numbers[2]);
	return code != TKC_OK ? code : tkc_snapshot_from_words(out, &counter, words);
}

/* Stores the words of a latch's copy. */
static inline void tkc_latch_snapshot_words(uint64_t *words, const struct tkc_snapshot *snapshot)
{
	struct tkc_counter counter;
	uint32_t bits, mult, shift;

	tkc_snapshot_words(words, snapshot);
	tkc_snapshot_counter(&counter, snapshot);
	tkc_counter_numbers(&bits, &mult, &shift, &counter);
	words[TKC_WORDS] = bits;
	words[TKC_WORDS + 1] = mult;
	words[TKC_WORDS + 2] = shift;
}

/* Stores the words of a page's copy, from a snapshot only. */
static inline void tkc_page_snapshot_words(uint64_t *words, const struct tkc_snapshot *snapshot)
{
	tkc_latch_snapshot_words(words, snapshot);
	words[TKC_LATCH_WORDS] = 0;
	words[TKC_LATCH_WORDS + 1] = 0;
}

/* Makes a page, and writes all its bytes. Its layout is 0 until all else is stored. */
static inline void tkc_page_init_words(struct tkc_page *page, const uint64_t *words)
{
	TKC_STORE(&page->layout, 0, relaxed);
	TKC_FENCE(release);
	tkc_words_store(page->copies[0], words, TKC_PAGE_WORDS);
	tkc_words_store(page->copies[1], words, TKC_PAGE_WORDS);
	TKC_STORE(&page->sequence, 0, relaxed);
	TKC_STORE(&page->layout, TKC_PAGE_LAYOUT, release);
}

/*
 * Makes a page with its first snapshot. No other thread may use the page before this call returns,
 * except by tkc_page_attach. Pass the page to other threads by a call that orders memory, such as
 * pthread_create or an atomic store.
 */
static inline void tkc_page_init(struct tkc_page *page, const struct tkc_snapshot *snapshot)
{
	uint64_t words[TKC_PAGE_WORDS];

	tkc_page_snapshot_words(words, snapshot);
	tkc_page_init_words(page, words);
}

/* Does the same with clocks, which tkc_page_clock can then rebuild. */
static inline void tkc_page_init_clock(struct tkc_page *page, const struct tkc_clock *clock)
{
	uint64_t words[TKC_PAGE_WORDS];

	tkc_clock_save(words, clock);
	tkc_page_init_words(page, words);
}

/*
 * Returns TKC_OK if the memory contains a page of this header's layout, and otherwise
 * TKC_BAD_LAYOUT. Call it once before the first read, if another program may have made the page.
 * The memory must be as large as a struct tkc_page, and aligned to 8 bytes.
 */
static inline uint32_t tkc_page_attach(const struct tkc_page *page)
{
	if (TKC_LOAD(&page->layout, acquire) != TKC_PAGE_LAYOUT)
		return TKC_BAD_LAYOUT;
	return TKC_OK;
}

/*
 * Does the writer's step 1. Read the counter for the command after this call. Readers wait between
 * this call and tkc_page_publish, so do nothing else there. The caller's lock must exclude other
 * writers. After a former writer has died inside, the sequence is odd, and stays so.
 *
 * The fence must be a full one: all readers must be able to see the odd sequence before the writer
 * reads the counter. Otherwise a reader may accept the old words with a reading after the command's
 * reading, and return a time that is later than the new words give. A release fence doesn't order a
 * store before a later load, nor before rdtsc. The lfence of read_counter keeps rdtsc after the
 * full fence.
 */
static inline void tkc_page_begin(struct tkc_page *page)
{
	uint64_t sequence = TKC_LOAD(&page->sequence, relaxed);

	TKC_STORE(&page->sequence, sequence | 1, relaxed);
	TKC_FENCE(seq_cst);
}

/*
 * Does the writer's steps 3 and 4. Without a tkc_page_begin readers still get whole snapshots, but
 * MONOTONIC may go back. The fence is for this case: readers must be able to see the former
 * sequence before the words.
 */
static inline void tkc_page_publish_words(struct tkc_page *page, const uint64_t *words)
{
	uint64_t sequence = TKC_LOAD(&page->sequence, relaxed) | 1;

	TKC_FENCE(release);
	tkc_words_store(page->copies[(sequence + 1) / 2 % 2], words, TKC_PAGE_WORDS);
	TKC_STORE(&page->sequence, sequence + 1, release);
}

/* Publishes a snapshot. After a refused command, publish the same snapshot again. */
static inline void tkc_page_publish(struct tkc_page *page, const struct tkc_snapshot *snapshot)
{
	uint64_t words[TKC_PAGE_WORDS];

	tkc_page_snapshot_words(words, snapshot);
	tkc_page_publish_words(page, words);
}

/* Publishes the snapshot of clocks, which tkc_page_clock can then rebuild. After a refused command,
 * publish the same clocks again. */
static inline void tkc_page_publish_clock(struct tkc_page *page, const struct tkc_clock *clock)
{
	uint64_t words[TKC_PAGE_WORDS];

	tkc_clock_save(words, clock);
	tkc_page_publish_words(page, words);
}

/* Does the reader's step 7. */
static inline int tkc_page_moved(const tkc_word *sequence, uint64_t first)
{
	TKC_FENCE(acquire);
	return TKC_LOAD(sequence, relaxed) != first;
}

/*
 * Rebuilds the clocks of the last publication, for a new writer, also if the former one died inside
 * (see "If the writer dies"). Returns, in this order:
 *   TKC_BAD_LAYOUT  the memory contains no page of this layout
 *   TKC_BUSY        a writer has published during the call: the former one isn't dead
 *   TKC_BAD_WORDS   something else than these calls wrote the page; or tkc_page_init or
 *                   tkc_page_publish wrote the last publication, and not tkc_page_init_clock,
 *                   tkc_page_publish_clock or tkc_page_recover
 */
static inline uint32_t tkc_page_clock(const struct tkc_page *page, struct tkc_clock *out)
{
	uint64_t words[TKC_PAGE_WORDS], sequence;

	if (tkc_page_attach(page) != TKC_OK)
		return TKC_BAD_LAYOUT;
	sequence = TKC_LOAD(&page->sequence, acquire);
	tkc_words_load(page->copies[sequence / 2 % 2], words, TKC_PAGE_WORDS);
	if (tkc_page_moved(&page->sequence, sequence))
		return TKC_BUSY;
	return tkc_clock_load(out, words);
}

/*
 * Makes a page whole from a new writer's clocks, wherever the former writer died. Readers that
 * waited go on.
 */
static inline void tkc_page_recover(struct tkc_page *page, const struct tkc_clock *clock)
{
	tkc_page_begin(page);
	tkc_page_publish_clock(page, clock);
}

/* Does the reader's steps 6 and 7, for the words of a snapshot and the numbers of its counter. */
static inline int tkc_page_try_at(const struct tkc_page *page, uint64_t sequence,
				  tkc_read_counter *read_counter, void *context, uint64_t *words,
				  uint64_t *reading)
{
	tkc_words_load(page->copies[sequence / 2 % 2], words, TKC_LATCH_WORDS);
	*reading = read_counter(context);
	return !tkc_page_moved(&page->sequence, sequence);
}

/* Does the reader's steps once. Returns 0 if a writer was inside. */
static inline int tkc_page_try(const struct tkc_page *page, tkc_read_counter *read_counter,
			       void *context, uint64_t *words, uint64_t *reading)
{
	uint64_t sequence = TKC_LOAD(&page->sequence, acquire);

	if (sequence % 2) {
		TKC_PAUSE();
		return 0;
	}
	return tkc_page_try_at(page, sequence, read_counter, context, words, reading);
}

/* For a read without a reading. */
static inline uint64_t tkc_no_reading(void *context)
{
	(void)context;
	return 0;
}

/*
 * Reads the latest snapshot. At a reading that is taken after this call, it may give a later time
 * than the next snapshot gives. So use tkc_page_now or tkc_page_look to read a clock. Returns
 * TKC_BAD_WORDS, or TKC_BAD_BITS to TKC_BAD_ADJUST, if anything else than these calls wrote the
 * page.
 */
static inline enum tkc_code tkc_page_read(const struct tkc_page *page, struct tkc_snapshot *out)
{
	uint64_t words[TKC_LATCH_WORDS], reading;

	while (!tkc_page_try(page, tkc_no_reading, NULL, words, &reading))
		;
	return tkc_words_checked(out, words);
}

/*
 * Reads the latest snapshot, and the counter while that snapshot is the latest. So several clocks
 * can be read at one reading, and MONOTONIC at these readings doesn't go back. The call writes
 * *reading even if it fails. Returns the codes of tkc_page_read.
 */
static inline enum tkc_code tkc_page_look(const struct tkc_page *page,
					  tkc_read_counter *read_counter, void *context,
					  struct tkc_snapshot *out, uint64_t *reading)
{
	uint64_t words[TKC_LATCH_WORDS];

	while (!tkc_page_try(page, read_counter, context, words, reading))
		;
	return tkc_words_checked(out, words);
}

/*
 * Reads a clock now: reads the counter while the words are the latest, and stores the clock's time
 * at that reading. Returns the codes of tkc_page_read and then the codes of tkc_snapshot_get.
 */
static inline enum tkc_code tkc_page_now(const struct tkc_page *page, uint32_t clock,
					 tkc_read_counter *read_counter, void *context,
					 struct tkc_time *out)
{
	struct tkc_snapshot snapshot;
	uint64_t reading;
	enum tkc_code code = tkc_page_look(page, read_counter, context, &snapshot, &reading);

	return code != TKC_OK ? code : tkc_snapshot_get(out, &snapshot, clock, reading);
}

/*
 * Reads a clock now, in at most `tries` tries, and so doesn't wait. Returns TKC_BUSY if a writer
 * was inside at each of them, and otherwise the codes of tkc_page_now.
 */
static inline uint32_t tkc_page_try_now(const struct tkc_page *page, uint32_t tries, uint32_t clock,
					tkc_read_counter *read_counter, void *context,
					struct tkc_time *out)
{
	uint64_t words[TKC_LATCH_WORDS], reading;
	struct tkc_snapshot snapshot;
	enum tkc_code code;

	for (; tries; tries--) {
		if (!tkc_page_try(page, read_counter, context, words, &reading))
			continue;
		code = tkc_words_checked(&snapshot, words);
		return code != TKC_OK ? code : tkc_snapshot_get(out, &snapshot, clock, reading);
	}
	return TKC_BUSY;
}

/* Returns a clock that isn't kept yet. */
static inline struct tkc_kept tkc_kept_none(uint32_t clock)
{
	struct tkc_kept none = TKC_ZEROS;

	none.sequence = 1;
	none.clock = clock;
	return none;
}

/* Keeps a clock of the words that a sequence selected. Returns the codes of tkc_page_read, and then
 * TKC_BAD_CLOCK. It keeps none if it fails, so the next read loads the words again. */
static inline enum tkc_code tkc_kept_make(struct tkc_kept *kept, uint64_t sequence,
					  const uint64_t *words)
{
	enum tkc_code code;

	kept->sequence = 1;
	code = tkc_words_checked(&kept->snapshot, words);
	if (code == TKC_OK)
		code = tkc_snapshot_line(&kept->line, &kept->snapshot, kept->clock);
	if (code == TKC_OK)
		kept->sequence = sequence;
	return code;
}

/* Stores the kept clock's time at a reading. Returns the codes of tkc_snapshot_get. */
static inline enum tkc_code tkc_kept_get(const struct tkc_kept *kept, uint64_t reading,
					 struct tkc_time *out)
{
	if (tkc_line_get(out, &kept->line, reading))
		return TKC_OK;
	return tkc_snapshot_get(out, &kept->snapshot, kept->clock, reading);
}

/* Does the same with a number of nanoseconds. */
static inline enum tkc_code tkc_kept_ns(const struct tkc_kept *kept, uint64_t reading,
					uint64_t *out)
{
	struct tkc_time time;
	enum tkc_code code;

	if (tkc_line_ns(out, &kept->line, reading))
		return TKC_OK;
	code = tkc_snapshot_get(&time, &kept->snapshot, kept->clock, reading);
	if (code == TKC_OK)
		*out = (uint64_t)time.sec * 1000000000 + time.nsec;
	return code;
}

/* Makes a reader of a page for one clock, which keeps no line yet. Returns TKC_BAD_LAYOUT as
 * tkc_page_attach does, and writes nothing then. If no clock has the number, each read returns
 * TKC_BAD_CLOCK. */
static inline uint32_t tkc_page_reader_init(struct tkc_page_reader *reader,
					    const struct tkc_page *page, uint32_t clock)
{
	if (tkc_page_attach(page) != TKC_OK)
		return TKC_BAD_LAYOUT;
	reader->page = page;
	reader->kept = tkc_kept_none(clock);
	return TKC_OK;
}

/* Does the steps 6 and 7 of a reader that keeps no line of this sequence, and makes it. */
TKC_SELDOM uint32_t tkc_page_reader_renew(struct tkc_page_reader *reader, uint64_t sequence,
					  tkc_read_counter *read_counter, void *context,
					  uint64_t *reading)
{
	uint64_t words[TKC_LATCH_WORDS];

	if (!tkc_page_try_at(reader->page, sequence, read_counter, context, words, reading))
		return TKC_BUSY;
	return tkc_kept_make(&reader->kept, sequence, words);
}

/* Does the reader's steps once. Returns TKC_BUSY if a writer was inside, and otherwise the codes of
 * tkc_kept_make. `renewed` lets the compiler keep *reading in a register. */
static inline uint32_t tkc_page_reader_try(struct tkc_page_reader *reader,
					   tkc_read_counter *read_counter, void *context,
					   uint64_t *reading)
{
	const tkc_word *place = &reader->page->sequence;
	uint64_t sequence = TKC_LOAD(place, acquire), renewed;
	uint32_t code;

	if (sequence % 2) {
		TKC_PAUSE();
		return TKC_BUSY;
	}
	if (sequence != reader->kept.sequence) {
		code = tkc_page_reader_renew(reader, sequence, read_counter, context, &renewed);
		*reading = renewed;
		return code;
	}
	*reading = read_counter(context);
	return tkc_page_moved(place, sequence) ? TKC_BUSY : (uint32_t)TKC_OK;
}

/*
 * Reads the counter while the kept snapshot is the latest, as tkc_page_look does. Then
 * reader->kept.snapshot is that snapshot, from which other clocks can be read at this reading, and
 * tkc_kept_get reads the kept clock. The call writes *reading even if it fails. Returns the codes of
 * tkc_page_read, and then TKC_BAD_CLOCK.
 */
static inline enum tkc_code tkc_page_reader_look(struct tkc_page_reader *reader,
						 tkc_read_counter *read_counter, void *context,
						 uint64_t *reading)
{
	uint32_t code;

	do
		code = tkc_page_reader_try(reader, read_counter, context, reading);
	while (code == TKC_BUSY);
	return (enum tkc_code)code;
}

/* Reads the clock now. Stores and returns what tkc_page_now does. */
static inline enum tkc_code tkc_page_reader_get(struct tkc_page_reader *reader,
						tkc_read_counter *read_counter, void *context,
						struct tkc_time *out)
{
	uint64_t reading;
	enum tkc_code code = tkc_page_reader_look(reader, read_counter, context, &reading);

	return code != TKC_OK ? code : tkc_kept_get(&reader->kept, reading, out);
}

/* Does the same with a number of nanoseconds. */
static inline enum tkc_code tkc_page_reader_ns(struct tkc_page_reader *reader,
					       tkc_read_counter *read_counter, void *context,
					       uint64_t *out)
{
	uint64_t reading;
	enum tkc_code code = tkc_page_reader_look(reader, read_counter, context, &reading);

	return code != TKC_OK ? code : tkc_kept_ns(&reader->kept, reading, out);
}

/* Reads the clock now, in at most `tries` tries. Stores and returns what tkc_page_try_now does. */
static inline uint32_t tkc_page_reader_try_get(struct tkc_page_reader *reader, uint32_t tries,
					       tkc_read_counter *read_counter, void *context,
					       struct tkc_time *out)
{
	uint64_t reading;
	uint32_t code;

	for (; tries; tries--) {
		code = tkc_page_reader_try(reader, read_counter, context, &reading);
		if (code == TKC_OK)
			return tkc_kept_get(&reader->kept, reading, out);
		if (code != TKC_BUSY)
			return code;
	}
	return TKC_BUSY;
}

/* Makes a latch with its first snapshot, as tkc_page_init makes a page. */
static inline void tkc_latch_init(struct tkc_latch *latch, const struct tkc_snapshot *snapshot)
{
	uint64_t words[TKC_LATCH_WORDS];

	tkc_latch_snapshot_words(words, snapshot);
	TKC_STORE(&latch->layout, 0, relaxed);
	TKC_FENCE(release);
	tkc_words_store(latch->copies[0], words, TKC_LATCH_WORDS);
	tkc_words_store(latch->copies[1], words, TKC_LATCH_WORDS);
	TKC_STORE(&latch->sequence, 0, relaxed);
	TKC_STORE(&latch->layout, TKC_LATCH_LAYOUT, release);
}

/* Returns TKC_OK or TKC_BAD_LAYOUT, as tkc_page_attach does. */
static inline uint32_t tkc_latch_attach(const struct tkc_latch *latch)
{
	if (TKC_LOAD(&latch->layout, acquire) != TKC_LATCH_LAYOUT)
		return TKC_BAD_LAYOUT;
	return TKC_OK;
}

/*
 * Does the writer's steps. It stores a sequence after the copy that the sequence selects is whole,
 * and before it writes the other copy (raw_write_seqcount_latch in include/linux/seqlock.h). The
 * caller's lock must exclude other writers. The sequence is odd at first only in tkc_latch_recover.
 */
static inline void tkc_latch_publish(struct tkc_latch *latch, const struct tkc_snapshot *snapshot)
{
	uint64_t sequence = (TKC_LOAD(&latch->sequence, relaxed) + 1) | 1;
	uint64_t words[TKC_LATCH_WORDS];
	uint64_t i;

	tkc_latch_snapshot_words(words, snapshot);
	for (i = 0; i < 2; i++) {
		TKC_STORE(&latch->sequence, sequence + i, release);
		TKC_FENCE(release);
		tkc_words_store(latch->copies[i], words, TKC_LATCH_WORDS);
	}
}

/*
 * Makes a latch whole and publishes the snapshot of a new writer's clocks, wherever the former
 * writer died. The copy that the sequence selects is whole, and is copied to the other one first.
 * The fence is for a reader that still reads the other copy: it must be able to see the present
 * sequence before that copy changes.
 */
static inline void tkc_latch_recover(struct tkc_latch *latch, const struct tkc_clock *clock)
{
	uint64_t whole = TKC_LOAD(&latch->sequence, acquire) & 1;
	struct tkc_snapshot snapshot;
	uint64_t words[TKC_LATCH_WORDS];

	tkc_words_load(latch->copies[whole], words, TKC_LATCH_WORDS);
	TKC_FENCE(release);
	tkc_words_store(latch->copies[!whole], words, TKC_LATCH_WORDS);
	tkc_clock_snapshot(&snapshot, clock);
	tkc_latch_publish(latch, &snapshot);
}

/* Does the reader's steps 6 and 7. */
static inline int tkc_latch_try_at(const struct tkc_latch *latch, uint64_t sequence,
				   tkc_read_counter *read_counter, void *context, uint64_t *words,
				   uint64_t *reading)
{
	tkc_words_load(latch->copies[sequence & 1], words, TKC_LATCH_WORDS);
	*reading = read_counter(context);
	return !tkc_page_moved(&latch->sequence, sequence);
}

/* Does the reader's steps once. Returns 0 if the sequence has changed. */
static inline int tkc_latch_try(const struct tkc_latch *latch, tkc_read_counter *read_counter,
				void *context, uint64_t *words, uint64_t *reading)
{
	uint64_t sequence = TKC_LOAD(&latch->sequence, acquire);

	return tkc_latch_try_at(latch, sequence, read_counter, context, words, reading);
}

/* Reads the latest whole snapshot. Returns the codes of tkc_page_read. */
static inline enum tkc_code tkc_latch_read(const struct tkc_latch *latch, struct tkc_snapshot *out)
{
	uint64_t words[TKC_LATCH_WORDS], reading;

	while (!tkc_latch_try(latch, tkc_no_reading, NULL, words, &reading))
		;
	return tkc_words_checked(out, words);
}

/* Reads the latest whole snapshot and the counter, as tkc_page_look does. Returns the codes of
 * tkc_page_read. */
static inline enum tkc_code tkc_latch_look(const struct tkc_latch *latch,
					   tkc_read_counter *read_counter, void *context,
					   struct tkc_snapshot *out, uint64_t *reading)
{
	uint64_t words[TKC_LATCH_WORDS];

	while (!tkc_latch_try(latch, read_counter, context, words, reading))
		;
	return tkc_words_checked(out, words);
}

/* Reads a clock now, from the latest whole snapshot. Returns the codes of tkc_page_now. */
static inline enum tkc_code tkc_latch_now(const struct tkc_latch *latch, uint32_t clock,
					  tkc_read_counter *read_counter, void *context,
					  struct tkc_time *out)
{
	struct tkc_snapshot snapshot;
	uint64_t reading;
	enum tkc_code code = tkc_latch_look(latch, read_counter, context, &snapshot, &reading);

	return code != TKC_OK ? code : tkc_snapshot_get(out, &snapshot, clock, reading);
}

/* Makes a reader of a latch for one clock, as tkc_page_reader_init does for a page. */
static inline uint32_t tkc_latch_reader_init(struct tkc_latch_reader *reader,
					     const struct tkc_latch *latch, uint32_t clock)
{
	if (tkc_latch_attach(latch) != TKC_OK)
		return TKC_BAD_LAYOUT;
	reader->latch = latch;
	reader->kept = tkc_kept_none(clock);
	return TKC_OK;
}

/* Does the steps 6 and 7 of a reader that keeps no line of this sequence, and makes it. */
TKC_SELDOM uint32_t tkc_latch_reader_renew(struct tkc_latch_reader *reader, uint64_t sequence,
					   tkc_read_counter *read_counter, void *context,
					   uint64_t *reading)
{
	uint64_t words[TKC_LATCH_WORDS];

	if (!tkc_latch_try_at(reader->latch, sequence, read_counter, context, words, reading))
		return TKC_BUSY;
	return tkc_kept_make(&reader->kept, sequence, words);
}

/* Does the reader's steps once. Returns TKC_BUSY if the sequence has changed, and otherwise the
 * codes of tkc_kept_make. While the sequence is odd, the former snapshot is made anew each time. */
static inline uint32_t tkc_latch_reader_try(struct tkc_latch_reader *reader,
					    tkc_read_counter *read_counter, void *context,
					    uint64_t *reading)
{
	const tkc_word *place = &reader->latch->sequence;
	uint64_t sequence = TKC_LOAD(place, acquire), renewed;
	uint32_t code;

	if (sequence % 2 || sequence != reader->kept.sequence) {
		code = tkc_latch_reader_renew(reader, sequence, read_counter, context, &renewed);
		*reading = renewed;
		return code;
	}
	*reading = read_counter(context);
	return tkc_page_moved(place, sequence) ? TKC_BUSY : (uint32_t)TKC_OK;
}

/* Reads the counter while the kept snapshot is the latest whole one, as tkc_page_reader_look does
 * on a page. */
static inline enum tkc_code tkc_latch_reader_look(struct tkc_latch_reader *reader,
						  tkc_read_counter *read_counter, void *context,
						  uint64_t *reading)
{
	uint32_t code;

	do
		code = tkc_latch_reader_try(reader, read_counter, context, reading);
	while (code == TKC_BUSY);
	return (enum tkc_code)code;
}

/* Reads the clock now. Stores and returns what tkc_latch_now does. */
static inline enum tkc_code tkc_latch_reader_get(struct tkc_latch_reader *reader,
						 tkc_read_counter *read_counter, void *context,
						 struct tkc_time *out)
{
	uint64_t reading;
	enum tkc_code code = tkc_latch_reader_look(reader, read_counter, context, &reading);

	return code != TKC_OK ? code : tkc_kept_get(&reader->kept, reading, out);
}

/* Does the same with a number of nanoseconds. */
static inline enum tkc_code tkc_latch_reader_ns(struct tkc_latch_reader *reader,
						tkc_read_counter *read_counter, void *context,
						uint64_t *out)
{
	uint64_t reading;
	enum tkc_code code = tkc_latch_reader_look(reader, read_counter, context, &reading);

	return code != TKC_OK ? code : tkc_kept_ns(&reader->kept, reading, out);
}

#undef TKC_LOAD
#undef TKC_STORE
#undef TKC_FENCE
#undef TKC_PAUSE
#undef TKC_SELDOM
#undef TKC_ZEROS

#endif /* TKCORE_PAGE_H */
