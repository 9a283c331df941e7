/* SPDX-License-Identifier: MIT OR Apache-2.0 */
/* moving.h - how the common counter of sleeps moves. */
#ifndef MOVING_H
#define MOVING_H

#include "tkrun.h"

/* Returns the cycles until a waiter's time, or 0 if its thread is about to wait, or the entry isn't
 * this owner's any more. */
uint64_t waiter_left(struct node *node, const struct waiter *waiter, uint64_t owner);

/* Returns the common counter when a node's has moved by some cycles, or NEVER. */
uint64_t common_after(const struct node *node, uint64_t cycles);

/* Moves all counters, lets events happen, and wakes the threads whose time has come. */
void move_and_wake(struct run *run, uint64_t common);

/* Moves all nodes to the furthest one. Returns false if reads have moved none. */
bool follow_reads(struct run *run);

/* While threads compute, reads move the counter only of their node. If one spins, and something is
 * to happen before where it is, all nodes follow. Returns whether they did. */
bool follow_spin(struct run *run);

#endif
