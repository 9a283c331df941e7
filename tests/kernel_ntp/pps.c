// SPDX-License-Identifier: GPL-2.0
/*
 * The kernel's own kernel/time/ntp.c of 6.1 with CONFIG_NTP_PPS and HZ ticks a second, in a process.
 * The calls below are those of compare_pps.py. There is no clock: the caller passes each time.
 */
#define CONFIG_NTP_PPS 1

#include <linux/ktime.h>

#include "kernel/time/ntp.c"

static time64_t now;

int kernel_warnings;

time64_t __ktime_get_real_seconds(void)
{
	return now;
}

void set_normalized_timespec64(struct timespec64 *out, time64_t sec, s64 nsec)
{
	s64 seconds = nsec / NSEC_PER_SEC - (nsec % NSEC_PER_SEC < 0);

	out->tv_sec = sec + seconds;
	out->tv_nsec = nsec - seconds * NSEC_PER_SEC;
}

/* Returns the length of a tick without the phase of the second, in 2^-32 ns. */
u64 kernel_open(void)
{
	ntp_init();
	return ntp_tick_length();
}

int kernel_second(s64 sec)
{
	return second_overflow(sec);
}

u64 kernel_tick_length(void)
{
	return ntp_tick_length();
}

void kernel_clear(void)
{
	ntp_clear();
}

int kernel_status(void)
{
	return time_status;
}

/* Answers a request without a fault. */
int kernel_adjtimex(void *timex, s64 sec, s64 nsec, s32 *tai)
{
	struct timespec64 time = { sec, nsec };
	struct audit_ntp_data audit;

	now = sec;
	return __do_adjtimex(timex, &time, tai, &audit);
}

void kernel_pulse(s64 nsec, s64 raw)
{
	struct timespec64 phase = { 0, nsec };
	struct timespec64 raw_time = { raw / NSEC_PER_SEC, raw % NSEC_PER_SEC };

	__hardpps(&phase, &raw_time);
}
