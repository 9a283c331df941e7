/* SPDX-License-Identifier: GPL-2.0 */
/*
 * A second of REALTIME begins with all its commands at the reading of a tick, not at its own
 * reading. Others have read the clocks since then, and a lower rate from that reading on would let
 * MONOTONIC fall.
 */

/* Logs the leap second that seconds with a change of TAI minus REALTIME have made. */
static void tk_log_leap(s32 change)
{
	if (change > 0)
		printk_deferred(KERN_NOTICE "Clock: inserting leap second 23:59:60 UTC\n");
	else if (change < 0)
		printk_deferred(KERN_NOTICE "Clock: deleting leap second 23:59:59 UTC\n");
}

/* Counts the seconds of a tick, and logs their leap second. */
static void tk_follow_seconds(s64 before)
{
	tk_log_leap((s32)tkc_snapshot_tai(&tk_snapshot) - tk_core.timekeeper.tai_offset);
	tk_count_seconds(before);
}

/*
 * Passes a tick: brings the clocks forward to a reading, with the seconds that begin up to it
 * (tkc_ntp_tick). *changed becomes 0 if only time has passed. Then tk_snapshot is of now.
 */
static __always_inline enum tkc_code tk_pass(u64 now, u32 *changed)
{
	s64 before = tk_seconds();
	enum tkc_code code;

	*changed = ~0;	/* (of a refused tick) */
	/* (the control: seconds begin at their own readings, and MONOTONIC falls) */
	if (IS_ENABLED(TKC_CONTROL))
		code = tkc_ntp_apply(&tk_state, now, TKC_CMD_UPDATE, 0, 0);
	else
		code = tkc_ntp_tick(&tk_snapshot, changed, &tk_state, now);
	if (*changed)
		tk_follow_seconds(before);
	return tk_check(code);
}

/* Brings the clocks forward to a reading, as a tick does. */
static enum tkc_code tk_forward(u64 now)
{
	u32 changed;

	return tk_pass(now, &changed);
}
