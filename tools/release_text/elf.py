# SPDX-License-Identifier: MIT OR Apache-2.0
"""Reads an ELF object file of 64 bits: its sections, its symbols and its relocations."""
import struct
from collections import namedtuple

PROGRAM, SYMBOLS, RELOCATIONS, NO_BYTES, INITIAL, FINAL, UNWIND = 1, 2, 4, 8, 14, 15, 0x70000001
KEPT = {PROGRAM, NO_BYTES, INITIAL, FINAL, UNWIND}  # the kinds of sections that a text has
ALLOCATED_EMPTY = {".text", ".data", ".bss"}  # sections that each assembler makes
STACK = ".note.GNU-stack"
COMMENT = ".comment"  # gas writes this section from its directives .ident
WRITE, ALLOC, EXECUTE, MERGE, STRINGS, INFO_LINK = 1, 2, 4, 0x10, 0x20, 0x40
LOCAL, GLOBAL, WEAK = 0, 1, 2
OBJECT, FUNCTION, SECTION, FILE = 1, 2, 3, 4
FIRST_RESERVED = 0xff00

Section = namedtuple("Section", "index name kind flags align entry size content")
# `section`: the index of its section, 0 if it is undefined
Symbol = namedtuple("Symbol", "name binding type visibility section value size")
Relocation = namedtuple("Relocation", "offset kind symbol addend")


class Fault(Exception):
    """What an object file or a text is refused for."""


class Object:
    """The sections, symbols and relocations of an object file."""

    def __init__(self, path):
        with open(path, "rb") as stream:
            self.image = stream.read()
        if self.image[:6] != b"\x7fELF\x02\x01" or self.image[16:18] != b"\x01\0":
            raise Fault(f"{path} is no object file of 64 bits")
        self.machine, = struct.unpack_from("<H", self.image, 18)
        headers, names = self.headers()
        self.sections = [self.section(index, header, headers[names])
                         for index, header in enumerate(headers)]
        self.symbols = [it for header in headers if header[1] == SYMBOLS
                        for it in self.table(header, headers)]
        self.relocations = {}  # by the index of their section, in order
        for header in headers:
            if header[1] == RELOCATIONS:
                rows = struct.iter_unpack("<QQq", self.content(header))
                self.relocations[header[7]] = sorted(
                    Relocation(at, info & 0xffffffff, info >> 32, addend)
                    for at, info, addend in rows)
        self.kept = [it for it in self.sections if it.kind in KEPT and it.name != STACK
                     and (it.size or it.name not in ALLOCATED_EMPTY)]
        self.require_names(path)

    def headers(self):
        place, = struct.unpack_from("<Q", self.image, 0x28)
        size, count, names = struct.unpack_from("<HHH", self.image, 0x3A)
        return [struct.unpack_from("<IIQQQQIIQQ", self.image, place + size * index)
                for index in range(count)], names

    def content(self, header):
        return b"" if header[1] == NO_BYTES else self.image[header[4]:header[4] + header[5]]

    def text(self, table, at):
        start = table[4] + at
        return self.image[start:self.image.index(b"\0", start)].decode()

    def section(self, index, header, names):
        return Section(index, self.text(names, header[0]), header[1], header[2], header[8],
                       header[9], header[5], self.content(header))

    def table(self, header, headers):
        for name, info, other, section, value, size in struct.iter_unpack(
                "<IBBHQQ", self.content(header)):
            yield Symbol(self.text(headers[header[6]], name), info >> 4, info & 15, other & 3,
                         section, value, size)

    def require_names(self, path):
        names = [it.name for it in self.kept]
        if twice := {name for name in names if names.count(name) > 1}:
            raise Fault(f"{path} has two sections {', '.join(sorted(twice))}")

    def is_here(self, symbol):
        return 0 < symbol.section < FIRST_RESERVED

    def named(self):
        """The symbols that a text names: all but those of files, sections and mapped code."""
        return [it for it in self.symbols if it.name and it.type not in (SECTION, FILE)
                and not it.name.startswith("$")]

    def target(self, symbol):
        """Returns the name of a symbol, or of the section that it stands for."""
        found = self.symbols[symbol]
        return self.sections[found.section].name if found.type == SECTION else found.name
