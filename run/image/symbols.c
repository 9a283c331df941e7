/* SPDX-License-Identifier: MIT OR Apache-2.0 */
/* symbols.c - finds the functions of a vDSO. */
#include "symbols.h"

#include <string.h>

struct segment segment_at(uint64_t vdso)
{
	struct segment found = { (const char *)vdso, 0, NULL };
	const Elf64_Ehdr *start = (const Elf64_Ehdr *)found.base;

	for (int i = 0; start && i < start->e_phnum; i++) {
		const Elf64_Phdr *part =
			(const Elf64_Phdr *)(found.base + start->e_phoff) + i;

		if (part->p_type == PT_LOAD)
			found.size = part->p_memsz;
		if (part->p_type == PT_DYNAMIC)
			found.dynamic = (const Elf64_Dyn *)(found.base +
							    part->p_offset);
	}
	return found;
}

static uint64_t find_dynamic(const struct segment *segment, int64_t tag)
{
	for (const Elf64_Dyn *entry = segment->dynamic;
	     entry && entry->d_tag != DT_NULL; entry++) {
		if (entry->d_tag == tag)
			return entry->d_un.d_ptr;
	}
	return 0;
}

/* The names follow the symbols. */
uint64_t segment_function(const struct segment *segment, const char *name)
{
	uint64_t names = find_dynamic(segment, DT_STRTAB);
	uint64_t at = find_dynamic(segment, DT_SYMTAB);

	for (; at && at + sizeof(Elf64_Sym) <= names; at += sizeof(Elf64_Sym)) {
		const Elf64_Sym *symbol =
			(const Elf64_Sym *)(segment->base + at);

		if (symbol->st_shndx != SHN_UNDEF &&
		    !strcmp(segment->base + names + symbol->st_name, name))
			return symbol->st_value;
	}
	return 0;
}
