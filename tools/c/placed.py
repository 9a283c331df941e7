#!/usr/bin/env python3
# SPDX-License-Identifier: MIT OR Apache-2.0
"""Prints a linker script that places the most frequent functions of an object file of x86-64.

    tools/c/placed.py OBJECT >placed.ld
    ld -r -T placed.ld OBJECT -o PLACED

Processors with Intel's erratum SKX102 don't keep a line of 32 bytes decoded if a jump in it crosses
the line's end or ends there. Assemblers can pad such jumps, but this code is compiled already. So
each function begins at the distance from a line, below 32 bytes, at which the fewest of its
instructions are in such lines. Calls aren't counted, since only rare paths of these functions call.
It needs objdump.
"""
import re
import subprocess
import sys

LINE = 32
PLACED = [".text.tkc_snapshot_get", ".text.tkc_clock_apply"]
INSTRUCTION = re.compile(r"\s*([0-9a-f]+):\t((?:[0-9a-f]{2} )+)\s*(\S*)")
IS_JUMP = re.compile(r"j|ret")
# a conditional jump and one of these before it are one operation
IS_FUSED = re.compile(r"cmp|test|add|sub|and|inc|dec")


def instructions(path, section):
    """The first byte, the end and the name of each instruction. objdump puts a long one on two lines."""
    found = []
    words = ["objdump", "-d", "-j", section, path]
    for line in subprocess.run(words, capture_output=True, check=True, text=True).stdout.splitlines():
        if part := INSTRUCTION.match(line):
            first, size = int(part[1], 16), len(part[2].split())
            if part[3]:
                found.append((first, first + size, part[3]))
            else:
                found[-1] = (found[-1][0], first + size, found[-1][2])
    return found


def sections(path):
    """The names of the object's sections."""
    words = ["objdump", "-h", "-w", path]
    found = subprocess.run(words, capture_output=True, check=True, text=True).stdout
    return set(re.findall(r"^ *[0-9]+ (\S+)", found, re.M))


def jumps(path, section):
    """The first byte and the end of each jump, with the instruction that is fused with it."""
    before = (0, 0, "")
    for first, end, name in instructions(path, section):
        if IS_JUMP.match(name):
            is_fused = name[0] == "j" and name != "jmp" and IS_FUSED.match(before[2])
            yield before[0] if is_fused else first, end
        before = (first, end, name)


def place(path, section):
    """The distance from a line at which the fewest instructions are in lines that aren't kept."""
    spans = list(jumps(path, section))
    begins = [first for first, _, _ in instructions(path, section)]

    def not_kept(distance):
        lines = {(distance + first) // LINE for first, end in spans
                 if (distance + first) // LINE != (distance + end) // LINE}
        return sum((distance + first) // LINE in lines for first in begins)

    return min(range(LINE), key=not_kept)


def main(path):
    print("SECTIONS\n{")
    for section in [it for it in PLACED if it in sections(path)]:
        distance = place(path, section)
        print(f"  {section} 0 : ALIGN({LINE}) SUBALIGN(1) {{ . = . + {distance}; *({section}) }}")
    print("}")


if __name__ == "__main__":
    main(sys.argv[1])
