/* SPDX-License-Identifier: MIT OR Apache-2.0 */
/* parked.h - the entries of the table (table.h). */
#ifndef PARKED_H
#define PARKED_H

#include "turns.h"

/* Takes an entry. Returns NULL if all are taken. */
struct parked *parked_enter(int32_t thread, uint32_t state, uint64_t key);

/* Frees an entry, unless it is another thread's by now. */
void parked_leave(struct parked *entry);

/* Waits while the entry has a word, or until a time. Returns 0, or minus an error. In the other one
 * the thread may be cancelled. */
long parked_wait(struct parked *entry, uint32_t word, const struct limit *limit);
long parked_wait_cancelled(struct parked *entry, uint32_t word, const struct limit *limit);

/* Returns whether a thread waits there for a lock or a condition variable. */
bool parked_is_of(const struct parked *entry, uint64_t key);

/* Forgets the numbers of the thread and the process, after a fork. */
void turn_number_anew(void);

#endif
