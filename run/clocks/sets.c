/* SPDX-License-Identifier: MIT OR Apache-2.0 */
/* sets.c - how a process sets the clocks. */
#define _GNU_SOURCE
#include "machine.h"

#include <errno.h>
#include <sys/time.h>

#ifndef CLOCK_SGI_CYCLE
#define CLOCK_SGI_CYCLE 10 /* of linux/time.h; no kernel has it */
#endif

enum { ZONE_MOST = 15 * 60 }; /* minutes, of do_sys_settimeofday64 */

static const int64_t SETTABLE_SEC_LIMIT = 8277292036; /* TIME_SETTOD_SEC_MAX */

int machine_error(enum tkc_code code)
{
	switch (code) {
	case TKC_OK:
		return 0;
	case TKC_ASLEEP:
		return EAGAIN;
	default:
		return EINVAL;
	}
}

bool machine_denies_set(const struct machine *machine)
{
	return machine->shared->denies_set || !machine->control;
}

/* timespec64_valid_settod, which is tested before the rights are */
static bool is_settable(int64_t sec, int64_t nsec)
{
	return sec >= 0 && sec < SETTABLE_SEC_LIMIT && nsec >= 0 &&
	       nsec < NANOS;
}

int machine_set_time(struct machine *machine, int64_t sec, int64_t nsec)
{
	if (machine_denies_set(machine))
		return is_settable(sec, nsec) ? EPERM : EINVAL;
	if (nsec < 0 || nsec >= NANOS)
		return EINVAL;
	return machine_error(machine_command(machine, TKC_CMD_SET_TIME, sec,
					     (uint32_t)nsec));
}

static int set_zone(struct machine *machine, const struct timezone *zone)
{
	if (machine_denies_set(machine))
		return EPERM;
	if (zone->tz_minuteswest > ZONE_MOST ||
	    zone->tz_minuteswest < -ZONE_MOST)
		return EINVAL;
	machine->control->zone[0] = zone->tz_minuteswest;
	machine->control->zone[1] = zone->tz_dsttime;
	return 0;
}

int machine_set_micros(struct machine *machine, const struct timeval *time,
		       const struct timezone *zone)
{
	int error = 0;

	if (time && (time->tv_usec < 0 || time->tv_usec >= 1000000))
		return EINVAL;
	if (zone && (!time || is_settable(time->tv_sec, 0)))
		error = set_zone(machine, zone);
	if (error || !time)
		return error;
	return machine_set_time(machine, time->tv_sec, time->tv_usec * 1000);
}

void machine_zone(const struct machine *machine, struct timezone *out)
{
	*out = (struct timezone){ 0 };
	if (machine->control)
		*out = (struct timezone){ machine->control->zone[0],
					  machine->control->zone[1] };
}

int machine_adjust_error(clockid_t clock)
{
	if (clock > CLOCK_TAI || clock == CLOCK_SGI_CYCLE)
		return EINVAL;
	return clock == CLOCK_REALTIME ? 0 : EOPNOTSUPP;
}
