/* SPDX-License-Identifier: GPL-2.0 */
/*
 * Kbuild includes this file before clocks.c, so that the trial can interrupt
 * the writer amid a copy: each WRITE_ONCE() of clocks.c calls trial_stores()
 * first. clocks.c itself has no hook, and needs neither this file nor trial.h.
 */
#ifndef STORES_H
#define STORES_H

#include "trial.h"

#undef WRITE_ONCE
#define WRITE_ONCE(to, value)            \
	do {                             \
		trial_stores(&(to));     \
		__WRITE_ONCE(to, value); \
	} while (0)

#endif
