/* SPDX-License-Identifier: GPL-2.0 */
/*
 * Until the library has a call that changes the counter of steered clocks: their clocks are taken
 * out as words, change their counter, and are put back. tk_change_counter() then becomes that call.
 */

/* Goes on with another counter. The lag is one of the old counter: let a step clear it. */
static enum tkc_code tk_change_counter(u64 now, const struct tkc_counter *counter, u64 first)
{
	u64 words[TKC_NTP_SAVED_WORDS];
	struct tkc_clock clocks;
	enum tkc_code code;

	tkc_ntp_save(words, &tk_state);
	code = tkc_clock_load(&clocks, words);
	if (!code)
		code = tkc_clock_change_counter(&clocks, now, counter, first);
	if (code)
		return code;
	tkc_clock_save(words, &clocks);
	words[32] = first;	/* the reading up to which the lag is accounted for */
	return tkc_ntp_load(&tk_state, words);
}
