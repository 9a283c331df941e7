/* SPDX-License-Identifier: MIT OR Apache-2.0 */
/* uncovered.h - programs that read the host's clocks. */
#ifndef UNCOVERED_H
#define UNCOVERED_H

#include <stdbool.h>
#include <sys/types.h>

/* With --lax, such a program is only named. */
void uncovered_allow(void);
bool uncovered_is_allowed(void);

/* Names a program that reads the host's clocks, and ends the run. With --lax it names each
 * name once. */
void uncovered_note(const char *name, pid_t process, const char *reason);

/* Names a program by its process. */
void uncovered_note_process(pid_t process, const char *reason);

/* Prints how many programs weren't named. */
void uncovered_print_rest(void);

/* Returns whether a program has ended the run. */
bool uncovered_is_over(void);

#endif
