/* SPDX-License-Identifier: MIT OR Apache-2.0 */
/* gettimes.h - reads each clock by a function that acts as clock_gettime. The clocks have started
 * at 1000000000, less than 100 s ago. */
#ifndef GETTIMES_H
#define GETTIMES_H

#include "faults.h"

#include <stdbool.h>
#include <time.h>

static const time_t START = 1000000000;

typedef int gettime(clockid_t, struct timespec *);

static inline bool is_after(time_t time, time_t start)
{
	return time >= start && time < start + 100;
}

static inline void check_clocks(gettime *read)
{
	static const clockid_t REAL[] = { CLOCK_REALTIME, CLOCK_REALTIME_COARSE,
					  CLOCK_TAI, CLOCK_REALTIME_ALARM };
	static const clockid_t MONOTONIC[] = { CLOCK_MONOTONIC,
					       CLOCK_MONOTONIC_RAW,
					       CLOCK_MONOTONIC_COARSE,
					       CLOCK_BOOTTIME,
					       CLOCK_BOOTTIME_ALARM };
	struct timespec now;

	for (size_t i = 0; i < sizeof(REAL) / sizeof(*REAL); i++)
		CHECK(!read(REAL[i], &now) && is_after(now.tv_sec, START));
	for (size_t i = 0; i < sizeof(MONOTONIC) / sizeof(*MONOTONIC); i++)
		CHECK(!read(MONOTONIC[i], &now) && is_after(now.tv_sec, 0));
	CHECK(!read(CLOCK_PROCESS_CPUTIME_ID, &now) && now.tv_sec < 100);
}

#endif
