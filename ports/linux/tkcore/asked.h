/* SPDX-License-Identifier: GPL-2.0 */
/* What others of the kernel ask of the discipline: its status bits and the coming leap second. */

/* Stores the status bits, and the MONOTONIC at which an inserted second begins, or KTIME_MAX. */
static void tk_ask(struct timekeeper *tk)
{
	ktime_t leap = KTIME_MAX;
	u64 second;

	if (tkc_ntp_leap(&second, &tk_state) == -1)
		leap = ktime_sub(ktime_set(second, 0), tk->offs_real);
	tk->next_leap_ktime = leap;
	WRITE_ONCE(tk_status, tkc_ntp_status(&tk_state));
}
