/* SPDX-License-Identifier: MIT OR Apache-2.0 */
/* readers.h - the files that say who made each read of a record. */
#ifndef READERS_H
#define READERS_H

#include "recording.h"

/* Ends tkrun if the file next to the first script can't be written. */
void readers_start(const struct recording *recording);

/* Writes a file next to each script. Returns 0 or an errno. */
int readers_write(const struct recording *recording);

/* Reads the scripts and these files again. Returns the number of reads without their line, and of
 * files with more lines, and prints the first of them. */
uint64_t readers_check(const struct recording *recording);

#endif
