// SPDX-License-Identifier: GPL-2.0
/* Commands from a process and from an hrtimer in hardirq context. */
#include "trial.h"

#include <linux/hrtimer.h>
#include <linux/random.h>

enum {
	PERIOD_NS = 1000000,
	FASTEST = 32768000, /* 500 ppm, in 2^-16 ppm */
	SLOWEST_TICK = 9000, /* in us */
	TICKS = 2001,
};

static struct hrtimer timer;
static bool timer_steers;

/* The caller holds the lock of the clocks. */
static void record(const struct entry *entry)
{
	if (trial.count < trial.room)
		trial.entries[trial.count++] = *entry;
}

/* Is called with the lock of the clocks held, after each command. */
void command_record(const struct command *command)
{
	struct entry entry = { .row = { .reading = command->reading,
					.command = command->command,
					.number = command->number,
					.nsec = command->nsec },
			       .code = command->code,
			       .front = command->front,
			       .time = command->time };

	WRITE_ONCE(trial.writer, -1);
	record(&entry);
}

u32 command_apply(u32 command, s64 number, u32 nsec)
{
	struct command applied = { .command = command,
				   .number = number,
				   .nsec = nsec };

	clocks_command(&trial.clocks, &applied);
	if (applied.code)
		trial.refused++;
	return applied.code;
}

/* Reads a clock at the latest snapshot, and records the read. */
static void read_and_record(u32 clock)
{
	struct entry entry = { .row = { .is_read = true, .clock = clock } };
	struct clocks *clocks = &trial.clocks;
	unsigned long flags;

	raw_spin_lock_irqsave(&clocks->lock, flags);
	entry.row.reading = clocks->read_counter();
	entry.code = tkc_snapshot_get(&entry.time, &clocks->snapshot, clock,
				      entry.row.reading);
	record(&entry);
	raw_spin_unlock_irqrestore(&clocks->lock, flags);
}

/* The commands that the kernel's own adjtimex() may bring at any time. */
static void steer(void)
{
	static u32 turn;

	switch (turn++ % 8) {
	case 1:
		command_apply(TKC_CMD_FREQ, FASTEST, 0);
		break;
	case 3:
		command_apply(TKC_CMD_TICK,
			      SLOWEST_TICK + get_random_u32() % TICKS, 0);
		break;
	case 5:
		command_apply(TKC_CMD_FREQ, -FASTEST, 0);
		break;
	case 7:
		command_apply(TKC_CMD_TAI_OFFSET, get_random_u32() % 38, 0);
		break;
	default:
		command_apply(TKC_CMD_UPDATE, 0, 0);
	}
}

static enum hrtimer_restart command_in_hardirq(struct hrtimer *timer)
{
	if (READ_ONCE(timer_steers))
		steer();
	else
		command_apply(TKC_CMD_UPDATE, 0, 0);
	calls_make_in_interrupt();
	hrtimer_forward_now(timer, PERIOD_NS);
	return HRTIMER_RESTART;
}

void command_timer_start(void)
{
	hrtimer_init(&timer, CLOCK_MONOTONIC, HRTIMER_MODE_REL_HARD);
	timer.function = command_in_hardirq;
	hrtimer_start(&timer, PERIOD_NS, HRTIMER_MODE_REL_HARD);
}

void command_timer_stop(void)
{
	hrtimer_cancel(&timer);
}

void command_timer_steer(bool is_steered)
{
	WRITE_ONCE(timer_steers, is_steered);
}

void steer_in_process(void)
{
	static const u32 CLOCK_IDS[] = {
		TKC_CLOCK_REALTIME, TKC_CLOCK_MONOTONIC,
		TKC_CLOCK_MONOTONIC_RAW, TKC_CLOCK_BOOTTIME,
		TKC_CLOCK_TAI, TKC_CLOCK_REALTIME_COARSE,
		TKC_CLOCK_MONOTONIC_COARSE,
	};

	command_apply(TKC_CMD_FREQ, (s32)get_random_u32() % FASTEST, 0);
	for (size_t i = 0; i < ARRAY_SIZE(CLOCK_IDS); i++)
		read_and_record(CLOCK_IDS[i]);
	command_apply(TKC_CMD_STEP, -1, get_random_u32() % NSEC_PER_SEC);
}
