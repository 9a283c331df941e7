// SPDX-License-Identifier: GPL-2.0
/*
 * The discipline of adjtimex(2) is in the library, and its calls are in timekeeping_tkcore.c. ntp.c
 * includes this file. What stays in ntp.c is the synchronization of the RTC.
 */
#include "ntp_status.h"

static void ntp_init_cmos_sync(void);

/* The length of a tick in ns. In the unmodified kernel it follows the frequency. */
unsigned long tick_nsec = TICK_NSEC;

static inline bool ntp_synced(void)
{
	return !(timekeeping_ntp_status() & STA_UNSYNC);
}

/* Initializes the synchronization of the RTC. timekeeping_init() opens the discipline. */
void __init ntp_init(void)
{
	ntp_init_cmos_sync();
}
