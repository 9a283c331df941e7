// SPDX-License-Identifier: GPL-2.0
/*
 * Changes the counter of other clocks each 100 ms, between the trial's counter
 * and the same one scaled by 3 / 7, while all contexts read these clocks.
 */
#define pr_fmt(fmt) "tkc: " fmt

#include "trial.h"

#include <linux/delay.h>
#include <linux/math64.h>

enum {
	COUNTERS = 2,
	PERIOD_MS = 100,
	SCALED_BITS = 56,
	SCALED_SPAN_SEC = 10, /* not the other's, so that the shift differs */
	FASTEST = 32768000, /* 500 ppm, in 2^-16 ppm */
	SLACK_NS = NSEC_PER_SEC,
};

static struct clocks changing;
static struct tkc_counter counters[COUNTERS];
static u64 first; /* the reading at the opening */

static u64 read_scaled(void)
{
	u64 reading = trial.clocks.read_counter();

	return (reading / 7 * 3 + reading % 7 * 3 / 7) &
	       GENMASK_ULL(SCALED_BITS - 1, 0);
}

static void note(const struct command *command)
{
	WRITE_ONCE(trial.writer, -1);
}

static bool open_clocks(void)
{
	changing = (struct clocks){
		.counter = trial.clocks.counter,
		.read_counter = trial.clocks.read_counter,
		.notify = note,
	};
	counters[0] = changing.counter;
	if (tkc_counter_from_hz(&counters[1], SCALED_BITS, trial.hz / 7 * 3,
				SCALED_SPAN_SEC))
		return false;
	first = changing.read_counter();
	return !clocks_open(&changing, first, &trial.time);
}

/*
 * Returns whether the reading isn't before the snapshot's, and MONOTONIC is
 * about the time since the opening by the trial's counter. With a reading of the
 * other counter it is off by 4 / 7 of that counter's reading.
 */
bool changes_is_near(const struct tkc_snapshot *snapshot, u64 reading)
{
	u64 words[TKC_WORDS], value, elapsed, slack;
	struct tkc_time time;

	tkc_snapshot_words(words, snapshot);
	if (reading < words[1] ||
	    tkc_snapshot_get(&time, snapshot, TKC_CLOCK_MONOTONIC, reading))
		return false;
	value = tkc_time_ns(&time);
	elapsed = mul_u64_u64_shr(trial.clocks.read_counter() - first, trial.mult,
				  trial.shift);
	slack = elapsed / 1000 + SLACK_NS; /* the frequency, and the host's pauses */
	return value + slack >= elapsed && value <= elapsed + slack;
}

/* Applies commands for PERIOD_MS. Returns false if one is refused. */
static bool steer_on(void)
{
	ktime_t end = ktime_add_ms(ktime_get(), PERIOD_MS);
	static int turn;

	while (ktime_before(ktime_get(), end)) {
		struct command command = { .command = TKC_CMD_FREQ };

		command.number = turn++ % 2 ? FASTEST : -FASTEST;
		clocks_command(&changing, &command);
		if (command.code)
			return false;
		usleep_range(500, 1000);
	}
	return true;
}

/* Returns whether saved clocks come back from their words. */
static bool is_saved(void)
{
	u64 words[TKC_SAVED_WORDS], again[TKC_SAVED_WORDS];
	struct tkc_clock clock;

	tkc_clock_save(words, &changing.clock);
	if (tkc_clock_load(&clock, words))
		return false;
	tkc_clock_save(again, &clock);
	return !memcmp(words, again, sizeof(words));
}

static bool change(int number)
{
	int to = number % COUNTERS;
	u32 code = clocks_change_counter(&changing, &counters[to],
					 to ? read_scaled :
					      trial.clocks.read_counter);

	note(NULL);
	if (code)
		pr_err("change %d of counter: %s\n", number,
		       tkc_code_name(code));
	return !code;
}

bool changes_run(unsigned int milliseconds, bool with_nmi)
{
	int changes = 0, wanted = milliseconds / PERIOD_MS;
	bool is_well;

	if (!open_clocks())
		return false;
	trial.read = &changing;
	is_well = readers_start(with_nmi);
	while (is_well && changes < wanted)
		is_well = steer_on() && change(++changes);
	is_well = is_well && steer_on();
	readers_stop();
	is_well &= readers_report("changed, ") && is_saved();
	pr_info("changed: %d changes between two counters\n", changes);
	trial.read = &trial.clocks;
	return is_well && changes;
}
