# SPDX-License-Identifier: MIT OR Apache-2.0
"""Reads what the paths through a function need of an object file of x86-64 or AArch64: its sections,
its functions, its instructions and its jump tables."""
import re
import struct
import subprocess
from collections import namedtuple

import aarch64
import x86_64
from state import Lost

SYMBOL_TABLE, RELOCATIONS, NO_BYTES = 2, 4, 8
FUNCTION = 2
MACHINES = {it.NUMBER: it for it in (x86_64, aarch64)}

# `relocations`: by the offset at which they apply, (section, offset), all of them pc-relative.
Section = namedtuple("Section", "name content relocations")
# `section`: its index. `start` and `end`: offsets in it.
Function = namedtuple("Function", "name section start end")


class ObjectFile:
    """The sections, functions and instructions of an object file."""

    def __init__(self, path):
        with open(path, "rb") as stream:
            self.image = stream.read()
        if self.image[:6] != b"\x7fELF\x02\x01" or self.image[16:18] != b"\x01\0":
            raise Lost(f"{path} is no object file of 64 bits")
        self.machine = MACHINES.get(int.from_bytes(self.image[18:20], "little"))
        if not self.machine:
            raise Lost(f"{path} is no object file of x86-64 or AArch64")
        place, = struct.unpack_from("<Q", self.image, 0x28)
        size, count, names = struct.unpack_from("<HHH", self.image, 0x3A)
        headers = [struct.unpack_from("<IIQQQQIIQQ", self.image, place + size * i)
                   for i in range(count)]
        self.sections = [Section(self.text(headers[names], header[0]), self.content(header), {})
                         for header in headers]
        table = next(header for header in headers if header[1] == SYMBOL_TABLE)
        symbols = list(struct.iter_unpack("<IBBHQQ", self.content(table)))
        for header in headers:
            if header[1] == RELOCATIONS:
                found = self.sections[header[7]].relocations
                for at, info, addend in struct.iter_unpack("<QQq", self.content(header)):
                    _, _, _, section, value, _ = symbols[info >> 32]
                    found[at] = (section, value + addend)
        self.functions = [Function(self.text(headers[table[6]], name), section, value, value + size)
                          for name, info, _, section, value, size in symbols
                          if info & 15 == FUNCTION and section and size]
        self.instructions = self.disassembled(path)
        self.tables = {i.place for listed in self.instructions.values() for i in listed
                       if i.mnemonic == "lea" and i.place}

    def content(self, header):
        return b"" if header[1] == NO_BYTES else self.image[header[4]:header[4] + header[5]]

    def text(self, table, at):
        start = table[4] + at
        return self.image[start:self.image.index(b"\0", start)].decode()

    def disassembled(self, path):
        """The instructions of each section, by its index, in order."""
        command = [*self.machine.OBJDUMP, "-d", "-z", "--no-show-raw-insn", path]
        listing = subprocess.run(command, check=True, capture_output=True, text=True).stdout
        names = [section.name for section in self.sections]
        lines = {}
        for line in listing.splitlines():
            if line.startswith("Disassembly of section "):
                section = names.index(line.removeprefix("Disassembly of section ")[:-1])
                lines[section] = []
            elif match := re.match(r" *([0-9a-f]+):\t(.*)", line):
                lines[section].append((int(match[1], 16), match[2].strip()))
        return {section: [self.machine.instruction(section, self.sections[section].relocations, at,
                                                   end, text) for (at, text), (end, _) in
                          zip(found, found[1:] + [(len(self.sections[section].content), "")])]
                for section, found in lines.items()}

    def code(self, function):
        """The instructions of a function, by their offsets. Its jump tables may follow them."""
        end = min([at for section, at in self.tables if section == function.section
                   and function.start <= at < function.end], default=function.end)
        listed = self.instructions[function.section]
        return {i.at: i for i in listed if function.start <= i.at < end}

    def targets(self, function, table):
        """The targets of a jump table. Each entry has 4 bytes: the target less the table's place.
        The table ends where the next begins, or the function or the section ends."""
        section, base = table
        inside = section == function.section
        words, relocations = self.sections[section].content, self.sections[section].relocations
        end = min([at for other, at in self.tables if other == section and at > base],
                  default=len(words))
        if inside:
            end = min(end, function.end)
            return {base + struct.unpack_from("<i", words, at)[0] for at in range(base, end - 3, 4)}
        entries = [(relocations.get(at, (None, 0)), at - base) for at in range(base, end - 3, 4)]
        return {offset - moved for (target, offset), moved in entries if target == function.section}
