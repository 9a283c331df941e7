/* SPDX-License-Identifier: MIT OR Apache-2.0 */
/* splitmix.h - numbers that look random, and are the same for equal seeds: splitmix64, of Steele, Lea
 * and Flood. The n-th number of a state is splitmix_mix(state + n * SPLITMIX_STEP). */
#ifndef SPLITMIX_H
#define SPLITMIX_H

#include <stdint.h>

static const uint64_t SPLITMIX_STEP = 0x9e3779b97f4a7c15;

/* Mixes the bits of a number. */
static inline uint64_t splitmix_mix(uint64_t bits)
{
	bits = (bits ^ bits >> 30) * 0xbf58476d1ce4e5b9;
	bits = (bits ^ bits >> 27) * 0x94d049bb133111eb;
	return bits ^ bits >> 31;
}

#endif
