// SPDX-License-Identifier: GPL-2.0
/*
 * The kernel's own kernel/time/ntp.c and kernel/time/timekeeping.c of 6.1, with HZ
 * ticks a second, in a process. The calls below are those of kernel.py. Each takes
 * the counter's reading at which it is made.
 */
#include <linux/ktime.h>

#include "kernel/time/ntp.c"
#include "kernel/time/timekeeping.c"

static u64 now;
static u64 slept;

static u64 read_counter(struct clocksource *clock)
{
	return now & clock->mask;
}

static struct clocksource counter = { .name = "counter", .read = read_counter };

int kernel_warnings;
u64 jiffies_64;
struct timezone sys_tz;

struct clocksource *clocksource_default_clock(void)
{
	return &counter;
}

void clocksource_suspend(void)
{
}

void clocksource_resume(void)
{
}

void clocksource_start_suspend_timing(struct clocksource *clock, u64 start)
{
}

/* Returns the sleep of a resume, in ns. */
u64 clocksource_stop_suspend_timing(struct clocksource *clock, u64 end)
{
	return slept;
}

void set_normalized_timespec64(struct timespec64 *out, time64_t sec, s64 nsec)
{
	s64 seconds = nsec / NSEC_PER_SEC - (nsec % NSEC_PER_SEC < 0);

	out->tv_sec = sec + seconds;
	out->tv_nsec = nsec - seconds * NSEC_PER_SEC;
}

struct timespec64 ns_to_timespec64(s64 nsec)
{
	struct timespec64 out;

	set_normalized_timespec64(&out, 0, nsec);
	return out;
}

/* Boots, and sets the time. A process does this once. */
int kernel_open(u32 bits, u32 mult, u32 shift, u64 reading, s64 sec, u32 nsec)
{
	counter.mask = CLOCKSOURCE_MASK(bits);
	counter.mult = mult;
	counter.shift = shift;
	counter.maxadj = mult / 100 * 11;
	now = reading;
	timekeeping_init();
	return do_settimeofday64(&(struct timespec64){ sec, nsec });
}

/* What happened to a tick's length, in 2^-32 ns: the sum of its changes, its least
 * and its greatest value. */
struct lengths {
	u64 turns, least, most;
};

/* Makes the ticks from the one at a reading, every `step` cycles, up to a reading.
 * Returns the reading of the next tick. */
u64 kernel_ticks(struct lengths *lengths, u64 tick, u64 step, u64 reading)
{
	u64 length = ntp_tick_length();

	*lengths = (struct lengths){ 0, length, length };
	for (; tick <= reading; tick += step) {
		now = tick;
		update_wall_time();
		lengths->turns += llabs((s64)(ntp_tick_length() - length));
		length = ntp_tick_length();
		lengths->least = min(lengths->least, length);
		lengths->most = max(lengths->most, length);
	}
	return tick;
}

int kernel_adjtimex(void *timex, u64 reading)
{
	now = reading;
	return do_adjtimex(timex);
}

int kernel_settime(s64 sec, u32 nsec, u64 reading)
{
	struct timespec64 time = { sec, nsec };

	now = reading;
	return do_settimeofday64(&time);
}

void kernel_suspend(u64 reading)
{
	now = reading;
	timekeeping_suspend();
}

void kernel_resume(u64 ns, u64 reading)
{
	now = reading;
	slept = ns;
	timekeeping_resume();
}

/* Returns a clock's time in ns: REALTIME (0), MONOTONIC (1), BOOTTIME (7) or TAI (11). */
s64 kernel_time(u32 clock, u64 reading)
{
	now = reading;
	switch (clock) {
	case 0: return ktime_get_with_offset(TK_OFFS_REAL);
	case 7: return ktime_get_with_offset(TK_OFFS_BOOT);
	case 11: return ktime_get_with_offset(TK_OFFS_TAI);
	default: return ktime_get();
	}
}

/* The variables of the discipline that no reply shows. */
u64 kernel_tick_length(void)
{
	return ntp_tick_length();
}

s64 kernel_reftime(void)
{
	return time_reftime;
}

u64 kernel_tick_cycles(void)
{
	return tk_core.timekeeper.cycle_interval;
}

s64 kernel_leap_at(void)
{
	return ntp_next_leap_sec;
}
