/* SPDX-License-Identifier: MIT OR Apache-2.0 */
/* parts.h - the scripts of a record. */
#ifndef PARTS_H
#define PARTS_H

#include "recording.h"

/* Writes the rows of the record's list as scripts. Returns 0 or an errno. */
int parts_write(struct recording *recording, const struct plan *plan);

#endif
