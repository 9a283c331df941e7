/* SPDX-License-Identifier: GPL-2.0 */
/* The two clocksources of process.c. They return more bits than their mask has, as jiffies do. */

static u64 read_counter(struct clocksource *clock)
{
	return now | ~clock->mask;
}

/* The readings of the other counter, OTHER cycles ahead. */
static u64 read_other(struct clocksource *clock)
{
	return (now + OTHER) | ~clock->mask;
}

static struct clocksource counters[2];
struct process_uses process_uses;

static int enable_counter(struct clocksource *clock)
{
	if (process_uses.is_broken)
		return -EIO;
	process_uses.enabled[clock - counters]++;
	return 0;
}

static void disable_counter(struct clocksource *clock)
{
	process_uses.enabled[clock - counters]--;
}

static struct clocksource counters[2] = {
	{ .read = read_counter, .enable = enable_counter, .disable = disable_counter },
	{ .read = read_other, .enable = enable_counter, .disable = disable_counter },
};

/* Gives a clocksource new numbers. */
static void describe(struct clocksource *counter, u32 bits, u32 mult, u32 shift)
{
	counter->mask = CLOCKSOURCE_MASK(bits);
	counter->mult = mult;
	counter->shift = shift;
	counter->maxadj = mult / 100 * 11;
	counter->max_idle_ns = ~0ULL;
}
