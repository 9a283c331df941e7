# SPDX-License-Identifier: MIT OR Apache-2.0
"""The macros at the head of a text, for what each function and each table repeats."""
import re

# `jumps` and `frame` count from the last label 1.
HEAD = """\
/* SPDX-License-Identifier: MIT OR Apache-2.0 */
/* Made by tools/release_text from a proved object file: don't change it. */

/* Begins a function in its own section. */
.macro function name,align,size
	.section ".text.\\name","ax",{mark}progbits
	.balign \\align
	.type "\\name",{mark}function
	.size "\\name",\\size
"\\name":
.endm
/* Begins one that other files can call. */
.macro public name,align,size
	.globl "\\name"
	function "\\name",\\align,\\size
.endm
/* Offsets in a section that the table at label 1 leads to. */
.macro jumps section,offsets:vararg
	.irp offset,\\offsets
	.long "\\section"+\\offset-1b
	.endr
.endm
/* Begins the bytes on how to unwind a function, after the common ones at label 1: its section, its
   offset there, its size, and the size of the whole. */
.macro frame section,offset,size,length
	.long \\length,.-1b,"\\section"+\\offset-.,\\size
.endm
"""
NAMES = re.findall(r"^\.macro (\w+)", HEAD, re.M)


def defined(machine):
    """Returns the head of a text: comments and the macros."""
    return HEAD.format(mark=machine.mark).splitlines()


def dropped():
    """Returns lines after which another text may define such macros."""
    return [f"\t.purgem {name}" for name in NAMES]
