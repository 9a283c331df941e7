// SPDX-License-Identifier: GPL-2.0
/*
 * kernel/time/ntp.c and kernel/time/timekeeping.c in a process: the unmodified ones, or those with
 * the port. Each call takes the reading of the counter at which it is made (process.py).
 */
#include "process.h"
#include <linux/ktime.h>
#include <stdarg.h>

#ifdef TKC_CONTROL	/* only the port */
#define TICK_ADJ_SETUP tk_tick_adj_setup
#else
#define TICK_ADJ_SETUP ntp_tick_adj_setup
#endif

#include "kernel/time/ntp.c"
#define ntp_notify_cmos_timer() ((void)process_log.notes++)
#include "kernel/time/timekeeping.c"

static u64 now, slept;

#include "process_counters.h"

int kernel_warnings;
struct process_log process_log;
s64 process_tick_adj;
s64 process_wall;
u64 process_uptime;
u64 jiffies_64;
struct timezone sys_tz;

struct clocksource *clocksource_default_clock(void)
{
	return &counters[0];
}

void clocksource_suspend(void)
{
}

void clocksource_resume(void)
{
}

void clocksource_start_suspend_timing(struct clocksource *clock, u64 start)
{
}

u64 clocksource_stop_suspend_timing(struct clocksource *clock, u64 end)
{
	return slept;
}

void set_normalized_timespec64(struct timespec64 *out, time64_t sec, s64 nsec)
{
	s64 seconds = nsec / NSEC_PER_SEC - (nsec % NSEC_PER_SEC < 0);

	out->tv_sec = sec + seconds;
	out->tv_nsec = nsec - seconds * NSEC_PER_SEC;
}

struct timespec64 ns_to_timespec64(s64 nsec)
{
	struct timespec64 out;

	set_normalized_timespec64(&out, 0, nsec);
	return out;
}

/*
 * Boots with a parameter ntp_tick_adj=, at a second of REALTIME that the persistent clock has, some
 * time after the machine started.
 */
void process_boot(u32 bits, u32 mult, u32 shift, u64 reading, s64 tick_adj, s64 wall, u64 uptime)
{
	describe(&counters[0], bits, mult, shift);
	memset(&process_uses, 0, sizeof(process_uses));
	now = reading;
	process_tick_adj = tick_adj;
	process_wall = wall;
	process_uptime = uptime;
	TICK_ADJ_SETUP("");
	timekeeping_init();
}

/* Returns what the calls since the last question have logged. */
void process_logged(struct process_log *out)
{
	*out = process_log;
	memset(&process_log, 0, sizeof(process_log));
}

static char printed[1024];

/* Takes a line of the log. Those of leap seconds are only counted. */
void process_print(const char *format, ...)
{
	size_t length = strlen(printed);
	va_list rest;

	process_log.inserted += !!strstr(format, "inserting");
	process_log.deleted += !!strstr(format, "deleting");
	if (strstr(format, "leap second"))
		return;
	va_start(rest, format);
	vsnprintf(printed + length, sizeof(printed) - length, format, rest);
	va_end(rest);
}

/* Returns the lines that have been logged since the last question. */
const char *process_printed(void)
{
	static char out[sizeof(printed)];

	strcpy(out, printed);
	printed[0] = 0;
	return out;
}

/* Goes on with the other counter. */
int process_switch(u32 bits, u32 mult, u32 shift, u64 reading)
{
	struct clocksource *to = &counters[tk_core.timekeeper.tkr_mono.clock == &counters[0]];

	describe(to, bits, mult, shift);
	now = reading;
	return timekeeping_notify(to);
}

void process_tick(u64 reading)
{
	now = reading;
	update_wall_time();
}

/* Makes a call. Returns in how many SSE registers it leaves another number than they had. */
static int count_sse_changes(void (*call)(void))
{
	static u8 xmm[2][16][16] __aligned(16);
	int i, changed = 0;

	for (i = 0; i < 16; i++)
		memset(xmm[0][i], 0x11 + i, 16);
	call_with_sse(call, xmm);
	for (i = 0; i < 16; i++)
		changed += !!memcmp(xmm[0][i], xmm[1][i], 16);
	return changed;
}

/* Makes a tick, and counts the SSE registers that it changes. */
int process_tick_with_sse(u64 reading)
{
	now = reading;
	return count_sse_changes(update_wall_time);
}

int process_adjtimex(void *timex, u64 reading)
{
	now = reading;
	return do_adjtimex(timex);
}

int process_settime(s64 sec, s64 nsec, u64 reading)
{
	struct timespec64 time = { sec, nsec };

	now = reading;
	return do_settimeofday64(&time);
}

#ifdef CONFIG_NTP_PPS
static struct timespec64 pulse_phase, pulse_raw;

static void make_pulse(void)
{
	hardpps(&pulse_phase, &pulse_raw);
}

/*
 * A pulse came `nsec` ns after a second of REALTIME, when MONOTONIC_RAW was `raw` ns. Counts the SSE
 * registers that it changes.
 */
int process_pulse(u32 nsec, u64 raw, u64 reading)
{
	pulse_phase = (struct timespec64){ 1, nsec };
	pulse_raw = ns_to_timespec64(raw);
	now = reading;
	return count_sse_changes(make_pulse);
}

/* Stores the numbers that the state of the signal is kept in. */
void process_signal(u64 out[10])
{
	memcpy(out, &tk_pps, sizeof(tk_pps));
}
#endif

/* Stores how many times REALTIME or TAI was set, and the clocksource changed (cross timestamps). */
void process_sequences(u32 out[2])
{
	struct system_time_snapshot snapshot;

	ktime_get_snapshot(&snapshot);
	out[0] = snapshot.clock_was_set_seq;
	out[1] = snapshot.cs_was_changed_seq;
}

void process_suspend(u64 reading)
{
	now = reading;
	timekeeping_suspend();
}

void process_resume(u64 ns, u64 reading)
{
	now = reading;
	slept = ns;
	timekeeping_resume();
}

/* The RTC reports a sleep that has ended. */
void process_inject(s64 sec, s64 nsec, u64 reading)
{
	struct timespec64 delta = { sec, nsec };

	now = reading;
	timekeeping_inject_sleeptime64(&delta);
}

#define READ_TIMESPEC(call) ({ struct timespec64 ts; call(&ts); timespec64_to_ns(&ts); })

/*
 * Returns a clock's time in ns, by the number of clock_gettime(2); from 100 on by the reads for an
 * NMI, from 200 on its whole seconds at the last change, and from 300 on by the reads of a struct
 * timespec64. 407 and 411 are what the vDSO has of BOOTTIME and TAI.
 */
s64 process_time(u32 clock, u64 reading)
{
	now = reading;
	switch (clock) {
	case 0: return ktime_get_with_offset(TK_OFFS_REAL);
	case 4: return ktime_get_raw();
	case 5: return ktime_get_coarse_with_offset(TK_OFFS_REAL);
	case 6: return READ_TIMESPEC(ktime_get_coarse_ts64);
	case 7: return ktime_get_with_offset(TK_OFFS_BOOT);
	case 11: return ktime_get_with_offset(TK_OFFS_TAI);
	case 100: return ktime_get_real_fast_ns();
	case 101: return ktime_get_mono_fast_ns();
	case 104: return ktime_get_raw_fast_ns();
	case 200: return ktime_get_real_seconds();
	case 201: return ktime_get_seconds();
	case 300: return READ_TIMESPEC(ktime_get_real_ts64);
	case 301: return READ_TIMESPEC(ktime_get_ts64);
	case 304: return READ_TIMESPEC(ktime_get_raw_ts64);
	case 407: return timespec64_to_ns(&tk_core.timekeeper.monotonic_to_boot);
	case 411: return tk_core.timekeeper.tai_offset;
	default: return ktime_get();
	}
}

#ifdef TKC_CONTROL	/* only the port */
int process_status(void)
{
	return timekeeping_ntp_status();
}

s64 process_max_deferment(void)
{
	return timekeeping_max_deferment();
}

/* Returns the MONOTONIC of the coming inserted second. */
s64 process_leap(void)
{
	return tk_core.timekeeper.next_leap_ktime;
}
#endif
