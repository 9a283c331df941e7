/* SPDX-License-Identifier: MIT OR Apache-2.0 */
/* find.h - the table of a run. */
#ifndef FIND_H
#define FIND_H

#include "turns.h"

/* NULL if there is none, or it isn't looked up yet. */
extern struct turns *turns_table;

/* Frees the entries of the program that this process ran before. */
void turn_forget(void);

/* Begins a process that was forked: its thread has another number, and needs the turn. */
void turn_begin(void);

#endif
