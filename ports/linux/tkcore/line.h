/* SPDX-License-Identifier: GPL-2.0 */
/*
 * Until tkc_snapshot_line is used: the ten words of a snapshot in the form of a struct timekeeper.
 * Only the split of REALTIME into seconds and their rest is computed. All readers of the kernel, in
 * any context, and the vDSO multiply by these numbers with the kernel's own line:
 *
 *     MONOTONIC = base + ((reading - cycle_last) * mult + xtime_nsec) >> shift
 *
 * This is the value of tkc_snapshot_get() as long as the sum is below 2^64, which is 68 s at a
 * shift of 28. tk_fill() then copies the lines.
 */

/* Sets the offsets. Returns whether REALTIME or TAI was set. */
static bool tk_fill_offsets(struct timekeeper *tk, const u64 words[TKC_WORDS])
{
	s32 tai = words[7] >> 1;
	ktime_t offs_real = words[5], offs_boot = words[6];
	ktime_t offs_tai = offs_real + tai * (s64)NSEC_PER_SEC;
	bool set = offs_real != tk->offs_real || offs_tai != tk->offs_tai;

	tk->tai_offset = tai;
	tk->offs_tai = offs_tai;
	if (offs_real != tk->offs_real) {
		tk->offs_real = offs_real;
		tk->wall_to_monotonic = ns_to_timespec64(-offs_real);
	}
	if (offs_boot != tk->offs_boot) {
		tk->offs_boot = offs_boot;
		tk->monotonic_to_boot = ns_to_timespec64(offs_boot);
	}
	return set;
}

/* Sets MONOTONIC and REALTIME. A reader without the lock may take either number of seconds. */
static void tk_fill_mono(struct timekeeper *tk, const u64 words[TKC_WORDS])
{
	u64 second = (u64)NSEC_PER_SEC << tk->tkr_mono.shift, frac, sec;
	s32 nsec;

	sec = words[4] + div_s64_rem(tk->offs_real, NSEC_PER_SEC, &nsec);
	frac = words[3] + ((u64)nsec << tk->tkr_mono.shift);
	if (frac >= second) {
		frac -= second;
		sec++;
	}
	tk->tkr_mono.cycle_last = words[1];
	tk->tkr_mono.mult = words[2];
	tk->tkr_mono.xtime_nsec = frac;
	tk->tkr_mono.base_real = ktime_set(sec, 0);
	tk->tkr_mono.base = ktime_set(sec, 0) - tk->offs_real;
	WRITE_ONCE(tk->xtime_sec, sec);
	WRITE_ONCE(tk->ktime_sec, words[4]);
}

/* Sets MONOTONIC_RAW, which the library starts where MONOTONIC starts. */
static void tk_fill_raw(struct timekeeper *tk, const u64 words[TKC_WORDS])
{
	u64 frac = words[8], from = (u64)tk_raw_from.tv_nsec << tk->tkr_raw.shift;
	time64_t sec = words[9] - tk_raw_from.tv_sec;

	if (frac < from) {
		frac += (u64)NSEC_PER_SEC << tk->tkr_raw.shift;
		sec--;
	}
	tk->tkr_raw.cycle_last = words[1];
	tk->tkr_raw.xtime_nsec = frac - from;
	tk->tkr_raw.base = ktime_set(sec, 0);
	tk->raw_sec = sec;
}

/*
 * Sets the timekeeper to tk_snapshot. Returns whether REALTIME or TAI was set, which is so only if
 * more than time has passed.
 */
static bool tk_fill(struct timekeeper *tk, bool is_tick)
{
	u64 words[TKC_WORDS];
	bool set;

	tkc_snapshot_words(words, &tk_snapshot);
	set = !is_tick && tk_fill_offsets(tk, words);
	tk_fill_mono(tk, words);
	tk_fill_raw(tk, words);
	return set;
}
