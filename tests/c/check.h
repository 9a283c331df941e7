/* SPDX-License-Identifier: MIT OR Apache-2.0 */
/* How programs here check what calls return. */
#ifndef CHECK_H
#define CHECK_H

#include <stdbool.h>
#include <stdint.h>
#include <tkcore.h>

#define COUNT_OF(array) (sizeof(array) / sizeof(*(array)))

/* Ends the program if a condition doesn't hold. */
#define check(holds) \
	do { \
		if (!(holds)) \
			fail(#holds, __FILE__, __LINE__); \
	} while (0)

/* The case that is tried, which `fail` prints: a name, or NULL for none, and a
 * number. */
extern const char *case_name;
extern uint64_t case_number;

void fail(const char *what, const char *file, int line);

/* Returns whether a snapshot has these words. */
bool is_same_snapshot(const struct tkc_snapshot *snapshot,
		      const uint64_t words[TKC_WORDS]);

#endif
