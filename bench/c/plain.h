/* SPDX-License-Identifier: MIT OR Apache-2.0 */
/* The same clocks as hand-written plain C, with which the library's calls, and the pages and latches
 * of peer_page, are compared. They get valid numbers only, and test nothing except the reading. */
#ifndef PLAIN_H
#define PLAIN_H

#include <stddef.h>
#include <stdint.h>

struct plain_clock {
	uint64_t last, mask;
	uint32_t mult, raw_mult, shift;
	uint64_t frac, sec; /* MONOTONIC: below a second in 2^-shift ns, and whole seconds */
	uint64_t raw_frac, raw_sec;
	uint64_t real_offset, boot_offset; /* REALTIME and BOOTTIME less MONOTONIC, in ns */
	uint64_t tai;
	uint64_t front;
};

enum { PLAIN_WORDS = 10 };

struct plain_time {
	int64_t sec;
	uint32_t nsec;
};

enum plain_code { PLAIN_OK, PLAIN_INVALID, PLAIN_BEHIND };

enum plain_code plain_get(struct plain_time *out, const struct plain_clock *clock,
			  uint64_t reading);
enum plain_code plain_update(struct plain_clock *clock, uint64_t reading);
/* The words of a snapshot. */
void plain_words(uint64_t words[PLAIN_WORDS], const struct plain_clock *clock);

/* Stops at the first stamp above the mask, and returns its index. */
size_t plain_convert(uint64_t *out, const struct plain_clock *clock, const uint64_t *stamps,
		     size_t count);
/* Tests no stamp, and uses products of 64 bits (as timecounter_cyc2time). */
void plain_loop(uint64_t *out, const struct plain_clock *clock, const uint64_t *stamps,
		size_t count);

#endif
