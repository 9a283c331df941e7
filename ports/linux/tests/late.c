// SPDX-License-Identifier: GPL-2.0
/*
 * Runs tkcore/late.h and tkcore/change_counter.h in a process. Each line of the input is an order:
 *
 *     open BITS MULT SHIFT READING SEC NSEC HZ
 *     forward READING                              tk_forward()
 *     command READING NUMBER SEC NSEC              tkc_ntp_apply()
 *     ask READING MODES OFFSET FREQ STATUS CONSTANT TICK
 *     counter READING BITS MULT SHIFT FIRST        tk_change_counter()
 *
 * The answer is a line with the code, the saved words but the first, which is the front, and the
 * leap seconds that have been logged: those inserted and those deleted.
 */
#include <inttypes.h>
#include <stdio.h>
#include <string.h>
#include "tkcore.h"

typedef uint64_t u64;
typedef int64_t s64;
typedef int32_t s32;
typedef uint32_t u32;

static struct tkc_ntp tk_state;
static struct tkc_snapshot tk_snapshot;
static struct { struct { s32 tai_offset; } timekeeper; } tk_core;
static int inserted, deleted;

#define IS_ENABLED(option) 0
#define KERN_NOTICE ""
#define printk_deferred(text) \
	(inserted += !!strstr(text, "inserting"), deleted += !!strstr(text, "deleting"))

static enum tkc_code tk_check(enum tkc_code code)
{
	return code;
}

struct __kernel_timex;

#include "../tkcore/pps.h"
#include "../tkcore/late.h"
#include "../tkcore/change_counter.h"

static u32 follow(const char *order, const s64 *n)
{
	struct tkc_timex timex = { .modes = n[1], .offset = n[2], .freq = n[3], .status = n[4],
				   .constant = n[5], .tick = n[6] };
	struct tkc_counter counter;
	u32 code, state;

	if (!strcmp(order, "open"))
		return tkc_counter_new(&counter, n[0], n[1], n[2]) ?:
		       tkc_ntp_open(&tk_state, &counter, n[3], n[4], n[5], n[6]);
	if (!strcmp(order, "forward"))
		return tk_forward(n[0]);
	if (!strcmp(order, "command"))
		return tkc_ntp_apply(&tk_state, n[0], n[1], n[2], n[3]);
	if (!strcmp(order, "ask"))
		return tkc_adjtimex(&timex, &state, &tk_state, n[0]);
	code = tkc_counter_new(&counter, n[1], n[2], n[3]);
	return code ? code : tk_change_counter(n[0], &counter, n[4]);
}

int main(void)
{
	char line[512], order[16];

	while (fgets(line, sizeof(line), stdin)) {
		u64 words[TKC_NTP_SAVED_WORDS];
		s64 n[7] = { 0 };

		if (sscanf(line, "%15s %" SCNi64 " %" SCNi64 " %" SCNi64 " %" SCNi64 " %" SCNi64
			   " %" SCNi64 " %" SCNi64, order, &n[0], &n[1], &n[2], &n[3], &n[4],
			   &n[5], &n[6]) < 1)
			return 2;
		printf("%u", follow(order, n));
		tkc_ntp_save(words, &tk_state);
		for (int i = 1; i < TKC_NTP_SAVED_WORDS; i++)
			printf(" %" PRIu64, words[i]);
		printf(" %d %d\n", inserted, deleted);
		tk_core.timekeeper.tai_offset = words[7] >> 1;
	}
	return 0;
}
