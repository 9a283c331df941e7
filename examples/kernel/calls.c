// SPDX-License-Identifier: GPL-2.0
/* The call that uses SSE registers, and the calls with words and with times. */
#define pr_fmt(fmt) "tkc: " fmt

#include "trial.h"

#include <asm/fpu/api.h>

enum { STAMPS = 9, STRIDE = 12345678 };

static void begin_sse(void)
{
	if (trial.saves_sse)
		kernel_fpu_begin();
}

static void end_sse(void)
{
	if (trial.saves_sse)
		kernel_fpu_end();
}

/* Converts a list, and returns whether single reads give the same times. */
static bool convert(const struct tkc_snapshot *snapshot, u64 reading)
{
	u64 stamps[STAMPS], out[STAMPS];
	struct tkc_time time;
	size_t done;
	u32 code;

	for (int i = 0; i < STAMPS; i++)
		stamps[i] = reading + i * STRIDE;
	begin_sse();
	code = tkc_snapshot_convert(out, STAMPS, &done, snapshot,
				    TKC_CLOCK_REALTIME, stamps, STAMPS);
	end_sse();
	if (code || done != STAMPS)
		return false;
	for (int i = 0; i < STAMPS; i++) {
		if (tkc_snapshot_get(&time, snapshot, TKC_CLOCK_REALTIME,
				     stamps[i]) ||
		    tkc_time_ns(&time) != out[i])
			return false;
	}
	return true;
}

/* Returns whether a snapshot comes back from its words. */
static bool is_restored(const struct tkc_snapshot *snapshot)
{
	u64 words[TKC_WORDS], again[TKC_WORDS];
	struct tkc_snapshot restored;

	tkc_snapshot_words(words, snapshot);
	if (tkc_snapshot_from_words(&restored, &trial.clocks.counter, words))
		return false;
	tkc_snapshot_words(again, &restored);
	return !memcmp(words, again, sizeof(words));
}

/* Returns whether the time that a read gives is first read at the reading that
 * tkc_snapshot_reading() finds. */
static bool is_found(const struct tkc_snapshot *snapshot, u64 reading)
{
	struct tkc_time time, first, before;
	u64 found, last;

	if (tkc_snapshot_get(&time, snapshot, TKC_CLOCK_REALTIME, reading) ||
	    tkc_snapshot_reading(&last, snapshot, TKC_CLOCK_REALTIME, 0, 0) ||
	    tkc_snapshot_reading(&found, snapshot, TKC_CLOCK_REALTIME, time.sec,
				 time.nsec) ||
	    tkc_snapshot_get(&first, snapshot, TKC_CLOCK_REALTIME, found) ||
	    tkc_snapshot_get(&before, snapshot, TKC_CLOCK_REALTIME, found - 1))
		return false;
	return tkc_time_ns(&first) == tkc_time_ns(&time) &&
	       (found == last || tkc_time_ns(&before) < tkc_time_ns(&time));
}

/* In an interrupt a list waits if the interrupted code uses SSE registers. The
 * other calls don't. */
void calls_make_in_interrupt(void)
{
	struct tkc_snapshot snapshot;
	u64 reading;

	clocks_look(&trial.clocks, &snapshot, &reading);
	if (is_restored(&snapshot) && is_found(&snapshot, reading))
		trial.snapshots++;
	else
		trial.snapshots_wrong++;
	if (trial.saves_sse && !irq_fpu_usable()) {
		trial.lists_postponed++;
		return;
	}
	if (convert(&snapshot, reading))
		trial.lists++;
	else
		trial.lists_wrong++;
}

/* Words restore clocks. No command may run at the same time. */
bool calls_check_words(void)
{
	u64 words[TKC_WORDS], again[TKC_WORDS];
	struct clocks *clocks = &trial.clocks;
	struct tkc_snapshot snapshot;
	struct tkc_clock clock;
	s64 frequency, tick;
	u32 code;

	tkc_clock_words(words, &frequency, &tick, &clocks->clock);
	code = tkc_clock_from_words(&clock, &clocks->counter, words, frequency,
				    tick);
	if (!code) {
		tkc_clock_snapshot(&snapshot, &clock);
		tkc_snapshot_words(again, &snapshot);
	}
	if (code || memcmp(words, again, sizeof(words)) ||
	    words[0] != clocks->front || !convert(&snapshot, words[1])) {
		pr_err("words or a list differ\n");
		return false;
	}
	return true;
}
