/* SPDX-License-Identifier: GPL-2.0 */

#ifdef CONFIG_NTP_PPS
/*
 * hardpps - takes a pulse, with the times of REALTIME and MONOTONIC_RAW at which it came
 * (tkc_ntp_pulse). Nothing that readers use changes, so they don't wait.
 */
void hardpps(const struct timespec64 *phase_ts, const struct timespec64 *raw_ts)
{
	unsigned long flags;

	if (timekeeping_suspended)
		return;
	raw_spin_lock_irqsave(&timekeeper_lock, flags);
	tk_sse_save();
	tk_take_pulse(phase_ts->tv_nsec, timespec64_to_ns(raw_ts));
	tk_sse_restore();
	raw_spin_unlock_irqrestore(&timekeeper_lock, flags);
}
EXPORT_SYMBOL(hardpps);
#endif
