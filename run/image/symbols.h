/* SPDX-License-Identifier: MIT OR Apache-2.0 */
/* symbols.h - the functions of a vDSO. */
#ifndef SYMBOLS_H
#define SYMBOLS_H

#include <elf.h>
#include <stddef.h>
#include <stdint.h>

/* A vDSO: its segment, and its dynamic section. */
struct segment {
	const char *base; /* NULL: there is none */
	size_t size;
	const Elf64_Dyn *dynamic;
};

/* Returns the vDSO at an address. */
struct segment segment_at(uint64_t vdso);

/* Returns the place of a function, or 0. */
uint64_t segment_function(const struct segment *segment, const char *name);

#endif
