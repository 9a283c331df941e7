// SPDX-License-Identifier: GPL-2.0
/*
 * Compares the module's clocks with the kernel's. ktime_get_snapshot() gives
 * the kernel's clocks and the reading of the counter that they are for.
 */
#define pr_fmt(fmt) "tkc: " fmt

#include "trial.h"

#include <linux/delay.h>

/* The results of a phase: the differences, and the time outside ktime_get(). */
struct found {
	u64 count;
	struct times least, most;
	u64 outside;
};

static const u32 CLOCK_IDS[CLOCKS] = {
	[RAW] = TKC_CLOCK_MONOTONIC_RAW,
	[MONOTONIC] = TKC_CLOCK_MONOTONIC,
	[REALTIME] = TKC_CLOCK_REALTIME,
	[BOOTTIME] = TKC_CLOCK_BOOTTIME,
	[TAI] = TKC_CLOCK_TAI,
};

/* Stores the kernel's clocks, and returns their reading of the counter. */
u64 kernel_times(struct times *times)
{
	struct system_time_snapshot kernel;
	ktime_t monotonic;

	ktime_get_snapshot(&kernel);
	monotonic = ktime_sub(kernel.real, ktime_mono_to_any(0, TK_OFFS_REAL));
	times->of[RAW] = ktime_to_ns(kernel.raw);
	times->of[MONOTONIC] = ktime_to_ns(monotonic);
	times->of[REALTIME] = ktime_to_ns(kernel.real);
	times->of[BOOTTIME] =
		ktime_to_ns(ktime_mono_to_any(monotonic, TK_OFFS_BOOT));
	times->of[TAI] = ktime_to_ns(ktime_mono_to_any(monotonic, TK_OFFS_TAI));
	return counter_reading(&kernel);
}

/* The module's MONOTONIC, MONOTONIC_RAW and BOOTTIME begin with 0. */
static s64 kernel_origin(enum clock clock)
{
	return clock == REALTIME || clock == TAI ? 0 : trial.kernel.of[clock];
}

/* Stores the differences, and returns false if a read was refused. */
bool compare(struct times *differences)
{
	struct clocks *clocks = &trial.clocks;
	struct tkc_snapshot snapshot;
	struct times kernel;
	unsigned int seq;
	u64 reading;

	do {
		seq = read_seqcount_begin(&clocks->seq);
		snapshot = clocks->snapshot;
		reading = kernel_times(&kernel);
	} while (read_seqcount_retry(&clocks->seq, seq));
	for (enum clock i = 0; i < CLOCKS; i++) {
		struct tkc_time time;

		if (tkc_snapshot_get(&time, &snapshot, CLOCK_IDS[i], reading))
			return false;
		differences->of[i] = tkc_time_ns(&time) -
				     (kernel.of[i] - kernel_origin(i));
	}
	return true;
}

static bool find_difference(struct found *found)
{
	struct times now;

	if (!compare(&now))
		return false;
	if (!found->count++)
		found->least = found->most = now;
	for (enum clock i = 0; i < CLOCKS; i++) {
		found->least.of[i] = min(found->least.of[i], now.of[i]);
		found->most.of[i] = max(found->most.of[i], now.of[i]);
	}
	return true;
}

static s64 kernel_monotonic(void)
{
	return ktime_to_ns(ktime_get()) - trial.kernel.of[MONOTONIC];
}

/* MONOTONIC is between two calls of ktime_get(). */
static bool find_outside(struct found *found)
{
	s64 before, after, value;
	struct tkc_snapshot snapshot;
	struct tkc_time time;
	u64 reading;

	preempt_disable();
	before = kernel_monotonic();
	clocks_look(&trial.clocks, &snapshot, &reading);
	after = kernel_monotonic();
	preempt_enable();
	if (tkc_snapshot_get(&time, &snapshot, TKC_CLOCK_MONOTONIC, reading))
		return false;
	value = tkc_time_ns(&time);
	found->outside = max3((s64)found->outside, before - value,
			      value - after);
	return true;
}

/* MONOTONIC_RAW doesn't depend on any command: 1 ns is for the rounding. */
static bool is_exact(const struct found *found)
{
	return found->least.of[RAW] >= -1 && found->most.of[RAW] <= 1;
}

static void print_found(const char *phase, const struct found *found)
{
	static const char *const WORDS[CLOCKS] = {
		"MONOTONIC_RAW", "MONOTONIC", "REALTIME", "BOOTTIME", "TAI"
	};

	pr_info("%s: %llu comparisons with the kernel's clocks\n", phase,
		found->count);
	for (enum clock i = 0; i < CLOCKS; i++)
		pr_info("%s: %s differs by %lld to %lld ns\n", phase, WORDS[i],
			found->least.of[i], found->most.of[i]);
}

bool compare_steady(unsigned int milliseconds)
{
	ktime_t end = ktime_add_ms(ktime_get(), milliseconds);
	struct found found = { 0 };

	while (ktime_before(ktime_get(), end)) {
		if (!find_difference(&found) || !find_outside(&found))
			return false;
		usleep_range(200, 400);
	}
	print_found("steady", &found);
	pr_info("steady: MONOTONIC is outside of two ktime_get() by %llu ns\n",
		found.outside);
	return is_exact(&found);
}

bool compare_steered(unsigned int milliseconds)
{
	ktime_t end = ktime_add_ms(ktime_get(), milliseconds);
	struct found found = { 0 };

	command_timer_steer(true);
	while (ktime_before(ktime_get(), end)) {
		steer_in_process();
		if (!find_difference(&found))
			return false;
		usleep_range(2000, 3000);
	}
	command_timer_steer(false);
	print_found("steered", &found);
	return is_exact(&found);
}

/*
 * Sets REALTIME by do_settimeofday64() and by SET_TIME, at different readings.
 * So it compares the changes of REALTIME minus MONOTONIC: afterwards this
 * difference must be the set time minus MONOTONIC at the command.
 */
bool compare_set(const struct timespec64 *time)
{
	s64 from = kernel_monotonic(), to, kernel_at, later;
	struct command command = { .command = TKC_CMD_SET_TIME,
				   .number = time->tv_sec,
				   .nsec = time->tv_nsec };
	struct times now;

	if (do_settimeofday64(time))
		return false;
	to = kernel_monotonic();
	clocks_command(&trial.clocks, &command);
	if (command.code || !compare(&now))
		return false;
	kernel_at = timespec64_to_ns(time) -
		    ktime_to_ns(ktime_mono_to_any(0, TK_OFFS_REAL)) -
		    trial.kernel.of[MONOTONIC];
	later = tkc_time_ns(&command.time) - kernel_at - now.of[MONOTONIC];
	pr_info("set: SET_TIME %lld ns after do_settimeofday64()\n", later);
	return from <= kernel_at && kernel_at <= to &&
	       now.of[REALTIME] - now.of[MONOTONIC] ==
		       kernel_at - (s64)tkc_time_ns(&command.time);
}
