/* SPDX-License-Identifier: MIT OR Apache-2.0 */
/*
 * waited.h - with --seed, the threads that wait for files in the kernel. They wake before they have
 * the turn, and find or take what the holder of the turn has given them by then.
 */
#ifndef WAITED_H
#define WAITED_H

#include "processes/tree.h"

/* Returns whether there are some. They wait for bytes, messages, connections, space, or a lock of a
 * file. */
bool waited_are_there(const struct tree *tree);

#endif
