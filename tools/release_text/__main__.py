# SPDX-License-Identifier: MIT OR Apache-2.0
"""Prints an object file of x86-64 or AArch64 as assembler text from which gas makes it again.

    python3 -B tools/release_text OBJECT >TEXT
    python3 -B tools/release_text --compare OBJECT TEXT

The text has each instruction, with the names of what its relocations refer to. The tool assembles
what it wrote, and ends with status 1 and a line for each difference if a section, a relocation or a
symbol isn't the object's. The second form only assembles and compares. It needs objdump and as of
the object's processor.
"""
import argparse
import sys
import tempfile

import compare
import elf
import machines
from instructions import assembled
from writer import Writer


def made_of(machine, lines):
    """Returns the object that gas makes of a text."""
    with tempfile.TemporaryDirectory() as folder:
        made, refused = assembled(machine, lines, folder)
    if refused:
        number = min(refused)
        raise elf.Fault(f"as refuses line {number}: {lines[number - 1].strip()}")
    return made


def require_same(found, made):
    if different := list(compare.differences(found, made)):
        raise elf.Fault("the text isn't the object's:\n" + "\n".join(different))


def text_of(path):
    """Returns the lines of an object's text, from which gas makes the same object."""
    writer = Writer(path)
    found, machine = writer.found, writer.machine
    lines = list(writer.lines())
    made = made_of(machine, lines)
    others = [it for it in found.kept if any(compare.of_section(found, it, made))]
    if others and machine is machines.X86_64:
        for section in others:
            writer.code.keep_long_branches(section)
        lines = list(writer.lines())
        made = made_of(machine, lines)
    require_same(found, made)
    return lines


def main():
    read = argparse.ArgumentParser(prog="release_text", usage=__doc__)
    read.add_argument("--compare", action="store_true")
    read.add_argument("names", nargs="+")
    given = read.parse_args()
    if len(given.names) != 1 + given.compare:
        read.error("other arguments")
    try:
        if not given.compare:
            print("\n".join(text_of(given.names[0])))
            return 0
        found = elf.Object(given.names[0])
        with open(given.names[1], encoding="utf-8") as stream:
            lines = stream.read().splitlines()
        require_same(found, made_of(machines.of_object(found), lines))
    except (elf.Fault, OSError) as fault:
        print(f"release_text: {fault}", file=sys.stderr)
        return 1
    return 0


if __name__ == "__main__":
    sys.exit(main())
