/* SPDX-License-Identifier: MIT OR Apache-2.0 */
/* backlog.h - packets of the loopback that the kernel hasn't delivered yet. */
#ifndef BACKLOG_H
#define BACKLOG_H

#include <stdbool.h>

/* Returns whether no packet waits for a processor, in the network of tkrun. On a busy machine one may
 * be on its way although its sender waits again. */
bool backlog_is_empty(void);

#endif
