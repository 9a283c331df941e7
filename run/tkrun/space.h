/* SPDX-License-Identifier: MIT OR Apache-2.0 */
/* space.h - with --seed, what the kernel chooses for processes: their numbers and addresses. */
#ifndef SPACE_H
#define SPACE_H

#include <stdbool.h>

/* Goes on as the first process of a new PID namespace, with its own /proc, if that is allowed, and
 * returns whether it does. The process that has called it passes signals on, and ends as that one
 * does. */
bool space_enter(void);

/* Lets all programs have the same addresses in each run, if that is allowed. */
void space_fix_addresses(void);

#endif
