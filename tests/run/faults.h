/* SPDX-License-Identifier: MIT OR Apache-2.0 */
/* faults.h - prints each condition that doesn't hold, and counts them. */
#ifndef FAULTS_H
#define FAULTS_H

#include <errno.h>
#include <stdio.h>
#include <string.h>

static int faults;

#define CHECK(condition)                                                     \
	do {                                                                 \
		if (!(condition)) {                                          \
			printf("%s:%d: %s (errno %s)\n", __FILE__, __LINE__, \
			       #condition, strerrorname_np(errno));          \
			faults++;                                            \
		}                                                            \
	} while (0)

#endif
