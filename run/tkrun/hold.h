/* SPDX-License-Identifier: MIT OR Apache-2.0 */
/* hold.h - for how long a thread has the turn. */
#ifndef HOLD_H
#define HOLD_H

#include "tkrun.h"
#include "turns/table.h"

/* A thread gets the turn. */
void hold_begins(void);

/* Ends turns, with a warning, if a thread has the turn for too long while others need it. */
void hold_watch(struct run *run, struct turns *table);

#endif
