/* SPDX-License-Identifier: GPL-2.0 */
/* The persistent clock of process.c. It has its own file, because the kernel's function is weak. */
#include "linux.h"
#include <linux/ktime.h>

extern s64 process_wall;

void read_persistent_clock64(struct timespec64 *ts)
{
	ts->tv_sec = process_wall;
	ts->tv_nsec = 0;
}
