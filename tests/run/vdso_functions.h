/* SPDX-License-Identifier: MIT OR Apache-2.0 */
/* vdso_functions.h - finds the functions of a vDSO by its symbols. */
#ifndef VDSO_FUNCTIONS_H
#define VDSO_FUNCTIONS_H

#include <elf.h>
#include <stddef.h>
#include <stdint.h>
#include <string.h>

/* Returns the address of a value of the dynamic section. */
static inline const void *find_dynamic(const char *base, int64_t tag)
{
	const Elf64_Ehdr *head = (const Elf64_Ehdr *)base;
	const Elf64_Phdr *part = (const Elf64_Phdr *)(base + head->e_phoff);
	const Elf64_Dyn *entry;

	while (part->p_type != PT_DYNAMIC)
		part++;
	entry = (const Elf64_Dyn *)(base + part->p_offset);
	while (entry->d_tag != tag)
		entry++;
	return base + entry->d_un.d_ptr;
}

/* Returns a function of the vDSO at an address, or NULL. */
static inline void *find_function(const char *base, const char *name)
{
	const Elf64_Sym *symbols = find_dynamic(base, DT_SYMTAB);
	const uint32_t *hash = find_dynamic(base, DT_HASH);
	const char *names = find_dynamic(base, DT_STRTAB);

	for (uint32_t i = 0; i < hash[1]; i++) {
		if (symbols[i].st_shndx && !strcmp(names + symbols[i].st_name, name))
			return (void *)(base + symbols[i].st_value);
	}
	return NULL;
}

#endif
