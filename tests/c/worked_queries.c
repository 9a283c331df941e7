/* SPDX-License-Identifier: MIT OR Apache-2.0 */
/* Reads clocks at their last command, and tests steps, with values that were computed manually. */
#include "worked_rows.h"

/* A clock of `commanded` at its last command. */
struct coarse {
	uint32_t clock;
	int64_t sec;
	uint32_t nsec;
};

/* A step at a reading, its code, and REALTIME without and with it. */
struct step {
	uint64_t reading;
	int64_t sec;
	uint32_t nsec, code;
	struct tkc_time before, after;
};

static const struct coarse coarse[] = {
	{ TKC_CLOCK_REALTIME, 1800000001, 5009 },
	{ TKC_CLOCK_MONOTONIC, 0, 7000 },
	{ TKC_CLOCK_MONOTONIC_RAW, 0, 7000 },
	{ TKC_CLOCK_REALTIME_COARSE, 1800000001, 5009 },
	{ TKC_CLOCK_MONOTONIC_COARSE, 0, 7000 },
	{ TKC_CLOCK_BOOTTIME, 2, 7003 },
	{ TKC_CLOCK_TAI, 1800000038, 5009 },
};

/* Steps of `commanded`: a refused row may have later faults too. MONOTONIC is 7,000 ns at the last
 * command. */
static const struct step steps[] = {
	{ 9000, 0, 0, TKC_OK, { 1800000001, 5009, 0 }, { 1800000001, 5009, 0 } },
	{ 9100, -1, 1, TKC_OK, { 1800000001, 5109, 0 }, { 1800000000, 5110, 0 } },
	{ 1000009000, 10, 999999999, TKC_OK, { 1800000002, 5009, 0 }, { 1800000013, 5008, 0 } },
	{ 2147492647, 0, 5, TKC_OK, { 1800000003, 147488656, 0 }, { 1800000003, 147488661, 0 } },
	{ 2147492648, 0, 5, TKC_BEHIND, { 0, 0, 0 }, { 0, 0, 0 } },
	{ 8999, -1800000002, 5, TKC_BEHIND, { 0, 0, 0 }, { 0, 0, 0 } },
	{ 8999, 0, 1000000000, TKC_INVALID, { 0, 0, 0 }, { 0, 0, 0 } },
	{ 9100, 0, 999999999, TKC_OK, { 1800000001, 5109, 0 }, { 1800000002, 5108, 0 } },
	{ 4294967296, 0, 0, TKC_INVALID, { 0, 0, 0 }, { 0, 0, 0 } },
	/* down to MONOTONIC, and a nanosecond below it */
	{ 9000, -1800000001, 1991, TKC_OK, { 1800000001, 5009, 0 }, { 0, 7000, 0 } },
	{ 9000, -1800000001, 1990, TKC_INVALID, { 0, 0, 0 }, { 0, 0, 0 } },
	/* to the last time that may be set, and a nanosecond past it */
	{ 9000, 6477292034, 999994990, TKC_OK, { 1800000001, 5009, 0 },
	  { 8277292035, 999999999, 0 } },
	{ 9000, 6477292034, 999994991, TKC_INVALID, { 0, 0, 0 }, { 0, 0, 0 } },
	{ 9000, INT64_MAX, 999999999, TKC_INVALID, { 0, 0, 0 }, { 0, 0, 0 } },
	{ 9000, INT64_MIN, 0, TKC_INVALID, { 0, 0, 0 }, { 0, 0, 0 } },
};

/* Steps of clocks with 4,194,304 ns a cycle, which reach the limit of MONOTONIC. */
static const struct step far_steps[] = {
	{ 225563049316, -1, 0, TKC_OK, { 2646079999, 998296064, 0 }, { 2646079998, 998296064, 0 } },
	{ 225563049317, -1, 0, TKC_RANGE, { 0, 0, 0 }, { 0, 0, 0 } },
	{ 225563049317, INT64_MAX, 0, TKC_RANGE, { 0, 0, 0 }, { 0, 0, 0 } },
};

static bool is_same_time(const struct tkc_time *time, const struct tkc_time *wanted)
{
	return time->sec == wanted->sec && time->nsec == wanted->nsec && !time->padding;
}

static void try_coarse(const struct coarse *row)
{
	static const struct command suspend = { 9500, TKC_CMD_SUSPEND, 0, 0, TKC_OK };
	struct tkc_time wanted = { row->sec, row->nsec, 0 }, time;
	struct tkc_clock clock = commanded();
	struct tkc_snapshot snapshot = snapshot_of(clock);

	make_old(&time);
	check(!tkc_snapshot_coarse(&time, &snapshot, row->clock));
	check(is_same_time(&time, &wanted));
	/* 500 ns later, asleep */
	apply(&clock, &suspend);
	snapshot = snapshot_of(clock);
	wanted.nsec += 500;
	check(!tkc_snapshot_coarse(&time, &snapshot, row->clock));
	check(is_same_time(&time, &wanted));
}

static void try_unknown(const uint32_t *clock)
{
	struct tkc_snapshot snapshot = snapshot_of(commanded());
	struct tkc_time time;

	make_old(&time);
	check(tkc_snapshot_coarse(&time, &snapshot, *clock) == TKC_BAD_CLOCK);
	check(is_old(&time));
}

/* Tests a step, and makes it. */
static void try_step_of(struct tkc_clock clock, const struct step *row)
{
	struct tkc_snapshot snapshot = snapshot_of(clock);
	struct tkc_time before, after;

	make_old(&before);
	make_old(&after);
	check(tkc_snapshot_step(&before, &after, &snapshot, row->reading, row->sec, row->nsec) ==
	      row->code);
	check(tkc_clock_step(&clock, row->reading, row->sec, row->nsec) == row->code);
	if (row->code) {
		check(is_old(&before) && is_old(&after));
		return;
	}
	check(is_same_time(&before, &row->before) && is_same_time(&after, &row->after));
	snapshot = snapshot_of(clock);
	before = read_at(&snapshot, TKC_CLOCK_REALTIME, row->reading);
	check(is_same_time(&before, &row->after));
}

static void try_step(const struct step *row)
{
	try_step_of(commanded(), row);
}

static void try_far_step(const struct step *row)
{
	try_step_of(opened_wide(), row);
}

/* While the clocks are asleep, no step is accepted. */
static void try_asleep(const struct step *row)
{
	static const struct command suspend = { 9000, TKC_CMD_SUSPEND, 0, 0, TKC_OK };
	struct tkc_clock clock = commanded();
	struct step refused = *row;

	apply(&clock, &suspend);
	refused.code = TKC_ASLEEP;
	try_step_of(clock, &refused);
}

void try_queries(void)
{
	static const uint32_t unknown[] = { 2, 3, 8, 10, 12, UINT32_MAX };

	try_each(coarse, try_coarse);
	try_each(unknown, try_unknown);
	try_each(steps, try_step);
	try_each(steps, try_asleep);
	try_each(far_steps, try_far_step);
}
