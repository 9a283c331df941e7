/* SPDX-License-Identifier: MIT OR Apache-2.0 */
/* image_bytes.c - the file of the image, which tools/build_run makes. */
#include "image.h"

__asm__(".section .rodata\n"
	".balign 8\n"
	".globl image_start, image_end\n"
	".hidden image_start, image_end\n"
	"image_start: .incbin \"" IMAGE "\"\n"
	"image_end:\n"
	".previous");
