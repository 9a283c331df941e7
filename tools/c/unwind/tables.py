#!/usr/bin/env python3
# SPDX-License-Identifier: MIT OR Apache-2.0
"""Prints the .eh_frame of an object file of x86-64 or AArch64 that has none, as an assembler file.

    tools/c/unwind/tables.py OBJECT >frames.s
    gcc -c frames.s && ld -r frames.o OBJECT -o TABLED      # frames.o first

For each instruction the tables say where the caller's frame is, and the caller's registers that a
function leaves as they were: rbx, rbp and r12 to r15, or x19 to x30 and d8 to d15. Both come from
following each path through each function. It ends with status 1 and one line at an instruction that
it can't follow: one that changes the stack pointer in another way than by a push, a pop or a
constant, two paths that reach an instruction with different depths, a jump to an unknown place, an
instruction that no path reaches, a register of the caller that is lost, or a return that doesn't
restore the stack pointer and the registers. It needs objdump of the processor.
"""
import sys

from elf import ObjectFile
from paths import states_of
from state import Lost

# Sections are named here to take their offset 0 as a symbol: the linker puts these empty parts
# before the object's own. Then the common information entry: version 1, pc-relative pointers of 4
# bytes, factors 1 and -8, the register of the return address, and the frame's address, counted from
# the stack pointer.
COMMON = """\
\t.section .note.GNU-stack,"",%progbits
\t.section .eh_frame,"a",%progbits
.Lcommon:
\t.long .Lcommon_end - .Lcommon_id
.Lcommon_id:
\t.long 0
\t.byte 1
\t.string "zR"
\t.uleb128 1
\t.sleb128 -8
\t.uleb128 {returns_to}
\t.uleb128 1
\t.byte 0x1b
\t.byte 0x0c
\t.uleb128 {stack}
\t.uleb128 {depth}
{entry}\t.balign 8, 0
.Lcommon_end:"""
FEW = 64  # registers below this number have instructions of one byte


def rule(at, state, kept):
    """The depth, and the place of each kept register that isn't where the caller had it."""
    places = dict(sorted(state.saved))
    for register in kept:
        if register not in places and register not in state.held:
            raise Lost(f"at {at:#x}: the caller's register {register} (of DWARF) is lost")
    return state.depth, places


def restored(register):
    """DW_CFA_restore, or its extended form."""
    return f"\t.byte 0xc0 + {register}" if register < FEW else f"\t.byte 0x06\n\t.uleb128 {register}"


def saved(register, place):
    """DW_CFA_offset, or its extended form."""
    head = f"\t.byte 0x80 + {register}" if register < FEW else f"\t.byte 0x05\n\t.uleb128 {register}"
    return f"{head}\n\t.uleb128 {place // 8}"


def changes(states, machine):
    """The call frame instructions of a function: what changes from one rule to the next."""
    last, (depth, places) = min(states), rule(0, machine.AT_ENTRY, machine.KEPT)
    for at in sorted(states):
        new_depth, new_places = rule(at, states[at], machine.KEPT)
        if (new_depth, new_places) == (depth, places):
            continue
        yield f"\t.byte 0x04\n\t.long {at - last}"  # DW_CFA_advance_loc4
        if new_depth != depth:
            yield f"\t.byte 0x0e\n\t.uleb128 {new_depth}"  # DW_CFA_def_cfa_offset
        for register in machine.KEPT:
            place = new_places.get(register)
            if place is None and register in places:
                yield restored(register)
            elif place != places.get(register):
                yield saved(register, place)
        last, depth, places = at, new_depth, new_places


def described(function, number, states, machine):
    """The frame description entry of a function."""
    return "\n".join([f"""\
\t.long .Lend{number} - .Lbegin{number}
.Lbegin{number}:
\t.long . - .Lcommon
\t.long .Lsection{function.section} + {function.start} - .
\t.long {function.end - function.start}
\t.uleb128 0""", *changes(states, machine), f"\t.balign 8, 0\n.Lend{number}:"])


def table(file):
    """The lines of the assembler file."""
    if any(section.name == ".eh_frame" for section in file.sections):
        raise Lost("the object has .eh_frame")
    for section in sorted({function.section for function in file.functions}):
        yield f'\t.section "{file.sections[section].name}","ax",%progbits\n.Lsection{section}:'
    machine = file.machine
    yield COMMON.format(returns_to=machine.RETURNS_TO, stack=machine.STACK,
                        depth=machine.AT_ENTRY.depth, entry=machine.ENTRY)
    for number, function in enumerate(file.functions):
        try:
            yield described(function, number, states_of(file, function), machine)
        except Lost as lost:
            raise Lost(f"{function.name}: {lost}") from None


if __name__ == "__main__":
    if len(sys.argv) != 2:
        sys.exit(__doc__)
    try:
        print("\n".join(table(ObjectFile(sys.argv[1]))))
    except Lost as lost:
        sys.exit(f"tables.py: {lost}")
