/* SPDX-License-Identifier: MIT OR Apache-2.0 */
/*
 * file_times.h - times of files, with --file-times. The kernel stamps a file with the host's
 * REALTIME, usually that of its last tick. The list in the shared page says what the clocks'
 * REALTIME was then. Before a command or a move, the host's clock ticks, so that no stamp can belong
 * to both sides of it.
 */
#ifndef FILE_TIMES_H
#define FILE_TIMES_H

#include "machine.h"

/* Waits until the time of the host's last tick is after now. A thread that sleeps counts as one
 * that waits, so only tkrun's may. */
void file_times_wait(const struct machine *machine, bool may_sleep);

/* Adds the present moment, unless the last one says as much: after a command that sets REALTIME, or
 * else. The caller has the lock. */
void file_times_note(struct machine *machine, const struct tkc_snapshot *snapshot, bool is_set);

/* Converts a time that a file has. One from before the run stays as it is, and so does one that a
 * program has set: the other notes these. */
void file_times_convert(const struct machine *machine, struct timespec *time);
void file_times_state(const struct machine *machine, const struct timespec *time);

#endif
