/* SPDX-License-Identifier: GPL-2.0 */
/*
 * The state of timekeeping on the library. timekeeping.c includes this file where its shadow copy
 * of the timekeeper was: changes are made in tk_state, so no shadow is needed.
 */
#include <linux/audit.h>
#include <asm/tlbflush.h>
#include "tkcore.h"
#include "sse.h"

/* An action of timekeeping_update(): only time has passed, and tk_snapshot is of now. */
#define TK_TICK			(1 << 3)

/*
 * All clocks and the discipline. Only calls of the library change it, under timekeeper_lock. After
 * each of them timekeeping_update() publishes its numbers in tk_core.timekeeper, from which all
 * readers and the vDSO compute times.
 */
static struct tkc_ntp tk_state;

/* The snapshot of tk_state from which timekeeping_update() takes its numbers. */
static struct tkc_snapshot tk_snapshot;

/* The status bits of the discipline (STA_UNSYNC ..), for a reader without the lock. */
static u32 tk_status = STA_UNSYNC;

/* What MONOTONIC was when the clocks were opened. MONOTONIC_RAW starts at 0 there. */
static struct timespec64 tk_raw_from;

static bool timekeeping_advance(enum timekeeping_adv_mode mode);
static int timekeeping_inject_offset(const struct timespec64 *ts);
static int change_clocksource(void *data);

/* Warns of a refusal that this kernel can't cause. The clocks then stay as they are. */
static enum tkc_code tk_check(enum tkc_code code)
{
	WARN_ONCE(code, "timekeeping: %s\n", tkc_code_name(code));
	return code;
}

/* The errno of a refusal. */
static int tk_errno(enum tkc_code code)
{
	switch (code) {
	case TKC_OK:
		return 0;
	case TKC_INVALID:	/* an argument or the resulting time is out of its range */
	case TKC_RANGE:		/* a clock would be past its limit */
		return -EINVAL;
	case TKC_ASLEEP:
	case TKC_AWAKE:
		return -EBUSY;
	case TKC_FULL:
		return -EOVERFLOW;
	default:
		tk_check(code);
		return -EIO;
	}
}
