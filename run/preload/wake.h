/* SPDX-License-Identifier: MIT OR Apache-2.0 */
/* wake.h - WAKE_SIGNAL in a process: it ends waits of the thread that gets it. */
#ifndef WAKE_H
#define WAKE_H

#include "calls.h"

/* Lets this process handle the signal. */
void wake_start(void);
void wake_handle(int number, siginfo_t *info, void *context);

/* Does what the program has set for the signal, which tkrun hasn't sent. */
void wake_pass_on(int number, siginfo_t *info, void *context);

/* Returns whether the program ignores the signal. */
bool wake_is_ignored(void);

/*
 * Lets the signal end the wait of a ticket, from now until wake_end. A system call that it
 * interrupts returns `result`, as if its time had come. `is_blocked` says whether the program
 * has blocked the signal. Returns false if the signal can't
 * come, for example because the ticket isn't listed.
 */
bool wake_begin(const struct machine *m, const struct ticket *ticket,
		long result, bool is_blocked);
void wake_end(const struct ticket *ticket);

/* Returns whether the signal may still end the last wait. If the program has blocked the signal, it
 * may not after another process has sent one: that stays pending. The second call lets tkrun send
 * none for a wait. */
bool wake_is_let(void);
void wake_let_none(const struct ticket *ticket);

/* Notes where the stack of the thread is. The system call that the signal may end is made
 * from there, and not by a handler that has interrupted the wait. */
void wake_place(void);

#endif
