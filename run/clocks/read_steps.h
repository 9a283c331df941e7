/* SPDX-License-Identifier: MIT OR Apache-2.0 */
/* read_steps.h - steps of REALTIME that come after a number of reads. */
#ifndef READ_STEPS_H
#define READ_STEPS_H

#include "machine.h"

/* Counts a read, and makes the steps that come after it. */
void read_steps_count(struct machine *machine);

#endif
