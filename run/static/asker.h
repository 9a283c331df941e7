/* SPDX-License-Identifier: MIT OR Apache-2.0 */
/* asker.h - who has made a call that tkrun answers. */
#ifndef ASKER_H
#define ASKER_H

#include "clocks/machine.h"

#include <linux/seccomp.h>

/* Returns the process of the call's thread, or the thread's number if the thread is gone. */
int asker_process(const struct seccomp_notif *ask);

/* Lets the reads of this thread of tkrun be those of the call's thread, if the record of these
 * clocks has readers. */
void asker_reads(const struct machine *machine, const struct seccomp_notif *ask);

#endif
