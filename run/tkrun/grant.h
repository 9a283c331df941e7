/* SPDX-License-Identifier: MIT OR Apache-2.0 */
/* grant.h - with --seed, grants the turn to one thread at a time: turns/table.h. */
#ifndef GRANT_H
#define GRANT_H

#include "tkrun.h"
#include "turns/table.h"

/* Makes the table. Ends tkrun if it can't. The other removes its file. */
void turns_open(struct run *run);
void turns_remove(const char *folder);

/* Returns whether threads need the turn. */
bool turns_are_on(void);

/* Returns whether the thread of an entry is parked in a state. */
bool turns_is_parked(const struct parked *entry, int32_t thread, uint32_t in);

/* Returns whether a thread is parked, and ready to go on. */
bool turns_has_ready(int32_t thread);

/* Takes the turn from its holder, since all threads wait, and grants it to a thread that is ready.
 * Returns false if none is. */
bool turns_grant(struct run *run);

/* Notes that tkrun has moved bytes. */
void turns_note_change(void);

/* Notes whether the counter has moved. If it hasn't, no thread was ready, and there was nothing else
 * to do. */
void turns_note_move(bool has_moved);

/* Ends turns, with a warning, if a thread has the turn for too long while others need it. */
void turns_watch(struct run *run);

#endif
