/* SPDX-License-Identifier: MIT OR Apache-2.0 */
/*
 * image.lds - how the image of run/image/image.c is linked: as one segment, whose bytes in memory
 * are those of the file. No relocations are done, and nothing writes to it.
 */
ENTRY(image_none)

SECTIONS
{
	. = SIZEOF_HEADERS;
	.hash : { *(.hash) } :text
	.gnu.hash : { *(.gnu.hash) } :text
	.dynsym : { *(.dynsym) } :text
	.dynstr : { *(.dynstr) } :text
	.gnu.version : { *(.gnu.version) } :text
	.gnu.version_d : { *(.gnu.version_d) } :text
	.dynamic : { *(.dynamic) } :text :dynamic
	.rodata : { *(.rodata .rodata.* .data.rel.ro .data.rel.ro.*) } :text
	.eh_frame_hdr : { *(.eh_frame_hdr) } :text :frames
	.eh_frame : { KEEP(*(.eh_frame)) } :text
	.text : { *(.text) KEEP(*(.text.forward)) *(.text.*) } :text
	.rela : { *(.rela .rela.*) } :text
	.got : { *(.got .got.*) } :text
	.data : { *(.data .data.* .tdata .tdata.* .bss .bss.* .tbss .tbss.*) } :text
	/DISCARD/ : { *(.note .note.* .comment) }
	ASSERT(SIZEOF(.data) == 0, "the image has data")
	ASSERT(SIZEOF(.rela) == 0, "the image has relocations")
}

PHDRS
{
	text PT_LOAD FILEHDR PHDRS FLAGS(5);
	dynamic PT_DYNAMIC FLAGS(4);
	frames PT_GNU_EH_FRAME;
}

/* the version by which programs look for the kernel's functions */
VERSION
{
	LINUX_2.6 {
	global:
		__vdso_clock_getres;
		__vdso_clock_gettime;
		__vdso_getcpu;
		__vdso_getrandom;
		__vdso_gettimeofday;
		__vdso_sgx_enter_enclave;
		__vdso_time;
	local:
		*;
	};
}
