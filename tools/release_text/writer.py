# SPDX-License-Identifier: MIT OR Apache-2.0
"""Writes an object file as assembler text: each section with its symbols, instructions and data."""
import re
from collections import defaultdict
from itertools import pairwise

import elf
import frames
import labels
import machines
import macros
from instructions import Code

KINDS = {elf.PROGRAM: "progbits", elf.NO_BYTES: "nobits", elf.INITIAL: "init_array",
         elf.FINAL: "fini_array", elf.UNWIND: "unwind"}
FLAGS = ((elf.ALLOC, "a"), (elf.WRITE, "w"), (elf.EXECUTE, "x"), (elf.MERGE, "M"),
         (elf.STRINGS, "S"))
VISIBILITY = {1: "internal", 2: "hidden", 3: "protected"}
CODE = ".text."  # before a function's name, in the name of its section
WORDS = {8: "quad", 4: "long", 1: "byte"}
ROW = 32  # bytes in a line of data
ENTRIES = 16  # of a table for jumps in a line


def quoted(name):
    """Returns a name as gas reads it."""
    return name if re.fullmatch(r"[\w.$]+", name) else f'"{name}"'


def plus(addend):
    return f"{addend:+d}" if addend else ""


class Writer:
    """The lines of an object file's text."""

    def __init__(self, path):
        self.found = elf.Object(path)
        self.machine = machines.of_object(self.found)
        self.named = defaultdict(list)  # the symbols of a place: (section, offset)
        for symbol in self.found.named():
            self.named[symbol.section, symbol.value].append(symbol)
        self.referred = defaultdict(set)  # the offsets in a section that instructions refer to
        self.inside = {(index, at) for index, here in self.found.relocations.items() for it in here
                       for at in range(it.offset + 1, it.offset + self.machine.words.get(
                           it.kind, (1, False))[0])}  # within words that relocations fill
        self.aliases = labels.aliases([
            *(it.name for it in self.found.named() if self.may_have_alias(it)),
            *(it.name for it in self.found.kept if not it.flags & (elf.EXECUTE | elf.MERGE))])
        self.code = Code(path, self.found, self.reference)

    def reference(self, symbol, addend):
        """Returns a relocation's symbol and addend; of a section, a local symbol at the place."""
        target = self.found.symbols[symbol]
        if target.type != elf.SECTION:
            return self.aliases.get(target.name, quoted(target.name)) + plus(addend)
        section = self.found.sections[target.section]
        self.referred[section.index].add(addend)
        for other in self.named.get((section.index, addend), ()):
            if other.binding == elf.LOCAL:
                return self.aliases.get(other.name, quoted(other.name))
        if section.name in self.aliases and self.is_place(section, addend):
            return self.alias(section, addend)
        return self.exact(symbol, addend)

    def may_have_alias(self, symbol):
        """Whether relocations refer to the symbol's section, and so to it by any other label too."""
        return (symbol.binding == elf.LOCAL and self.found.is_here(symbol)
                and not self.found.sections[symbol.section].flags & elf.MERGE)

    def is_place(self, section, at):
        """Whether a line of the section's data can begin there."""
        return 0 <= at < section.size and (section.index, at) not in self.inside

    def alias(self, section, at):
        """Returns the label for a place in a section whose name not every assembler takes."""
        return self.aliases[section.name] + (f"_{at:x}" if at else "")

    def exact(self, symbol, addend):
        return quoted(self.found.target(symbol)) + plus(addend)

    def lines(self):
        """Yields the lines of the whole text."""
        yield from macros.defined(self.machine)
        for symbol in self.found.symbols:
            if symbol.type == elf.FILE:
                yield f'\t.file "{symbol.name}"'
        comments = [it for it in self.found.kept if it.name == elf.COMMENT]
        for section in self.found.kept:
            if section not in comments:
                yield ""
                yield from self.section(section)
        for section in comments:
            yield ""
            yield from (f'\t.ident "{word.decode()}"'
                        for word in section.content.split(b"\0") if word)
        yield f'\n\t.section {elf.STACK},"",{self.machine.mark}progbits'
        yield from macros.dropped()

    def section(self, section):
        """Yields a section, with one line before its instructions if it is a function's own."""
        first = self.named.get((section.index, 0), ())
        is_own = len(first) == 1 and self.is_own(section, first[0])
        if is_own:
            macro = "public" if first[0].binding == elf.GLOBAL else "function"
            yield f"{macro} {quoted(first[0].name)},{section.align},{first[0].size}"
            yield from self.other_label(first[0])
        else:
            yield self.head(section)
            if section.align > 1:
                yield f"\t.balign {section.align}"
        if entries := self.entries(section):
            yield from self.frames(section, entries)
        else:
            yield from self.body(section, is_own)

    def is_own(self, section, symbol):
        """Whether a macro begins this section and its symbol."""
        return (section.name == CODE + symbol.name and section.kind == elf.PROGRAM
                and section.flags == elf.ALLOC | elf.EXECUTE and symbol.type == elf.FUNCTION
                and symbol.binding in (elf.LOCAL, elf.GLOBAL) and not symbol.visibility)

    def head(self, section):
        flags = "".join(letter for bit, letter in FLAGS if section.flags & bit)
        size = f",{section.entry}" if section.flags & elf.MERGE else ""
        return (f'\t.section {quoted(section.name)},"{flags}",'
                f"{self.machine.mark}{KINDS[section.kind]}{size}")

    def body(self, section, is_own):
        """Yields the content of a section between its symbols and labels."""
        instructions = {it.at: it for it in self.code.listed.get(section.index, ())}
        symbols = {at for index, at in self.named if index == section.index}
        referred = set() if instructions else {
            it for it in self.referred[section.index] if self.is_place(section, it)}
        numbers = self.numbers(section)
        cuts = sorted({0, section.size} | symbols | instructions.keys() | referred)
        for at, end in pairwise([*cuts, None]):
            if at or not is_own:
                for symbol in self.named.get((section.index, at), ()):
                    yield from self.symbol(symbol)
            if at in numbers:
                yield f"{numbers[at]}:"
            if at in referred and section.name in self.aliases:
                yield f"{self.alias(section, at)}:"
            if end is None:
                return
            text = self.code.texts.get((section.index, at))
            if text is None:
                yield from self.data(section, at, end, instructions.get(at))
            else:
                yield f"\t{text}{labels.named(numbers, at, instructions[at].target)}"

    def numbers(self, section):
        """Returns the number of each place that a branch of the section leads to."""
        functions = {at for (index, at), symbols in self.named.items() if index == section.index
                     and any(it.type == elf.FUNCTION for it in symbols)}
        return labels.numbered(functions, [
            (it.at, it.target) for it in self.code.listed.get(section.index, ())
            if it.target is not None and (section.index, it.at) in self.code.texts])

    def symbol(self, symbol):
        name = quoted(symbol.name)
        if symbol.binding != elf.LOCAL:
            yield f"\t.{'globl' if symbol.binding == elf.GLOBAL else 'weak'} {name}"
        if symbol.visibility:
            yield f"\t.{VISIBILITY[symbol.visibility]} {name}"
        if symbol.type in (elf.OBJECT, elf.FUNCTION):
            kind = "function" if symbol.type == elf.FUNCTION else "object"
            yield f"\t.type {name},{self.machine.mark}{kind}"
        if symbol.size:
            yield f"\t.size {name},{symbol.size}"
        yield f"{name}:"
        yield from self.other_label(symbol)

    def other_label(self, symbol):
        if symbol.name in self.aliases:
            yield f"{self.aliases[symbol.name]}:"

    def relocations(self, section, at, end):
        return [it for it in self.found.relocations.get(section.index, []) if at <= it.offset < end]

    def data(self, section, at, end, instruction):
        """Yields bytes, and words that relocations fill. An instruction is a comment before."""
        if section.kind == elf.NO_BYTES:
            yield f"\t.zero {end - at}"
            return
        here = self.relocations(section, at, end)
        if instruction:
            yield f"\t/* {instruction.shown} */"
            for it in here:
                place, name = self.exact(it.symbol, it.addend), self.machine.names.get(it.kind)
                yield f"\t.reloc .+{it.offset - at},{name or self.unknown(section, it)},{place}"
            here = []
        if self.is_table(section, at, end, here):
            yield from self.table(at, here)
            return
        for relocation in here:
            yield from self.words(section, at, relocation.offset)
            size, is_relative = self.width(section, relocation)
            place = self.exact(relocation.symbol, relocation.addend)
            yield f"\t.{WORDS[size]} {place}{'-.' if is_relative else ''}"
            at = relocation.offset + size
        yield from self.words(section, at, end)

    def is_table(self, section, at, end, here):
        """Whether these are places in one other section with code, counted from their entries."""
        symbols = [self.found.symbols[it] for it in {it.symbol for it in here}]
        return ([it.offset for it in here] == list(range(at, end, 4)) and not (end - at) % 4
                and all(self.machine.words.get(it.kind) == (4, True) for it in here)
                and [it.type for it in symbols] == [elf.SECTION]
                and not section.flags & elf.EXECUTE
                and self.found.sections[symbols[0].section].flags & elf.EXECUTE)

    def table(self, at, here):
        """Yields the lines of a table for jumps. Its entries count from its first byte."""
        yield "1:"
        name = quoted(self.found.target(here[0].symbol))
        offsets = [str(it.addend - (it.offset - at)) for it in here]
        for first in range(0, len(offsets), ENTRIES):
            yield f"jumps {name},{','.join(offsets[first:first + ENTRIES])}"

    def entries(self, section):
        """Returns the entries of a section .eh_frame, or [] if not all are of the usual form."""
        has_symbols = any(index == section.index for index, _ in self.named)
        if section.name != frames.NAME or has_symbols:
            return []
        found = frames.entries(section.content)
        return found if all(self.is_framed(section, it) for it in found) else []

    def is_framed(self, section, entry):
        """Whether an entry refers to the place of its function only."""
        here = self.relocations(section, entry.at, entry.end)
        if entry.is_common or len(here) != 1:
            return entry.is_common and not here
        return (here[0].offset == entry.at + frames.PLACE
                and self.machine.words.get(here[0].kind) == (4, True))

    def frames(self, section, entries):
        """Yields the lines of a section .eh_frame. A function's entry counts from the label 1."""
        for it in entries:
            if it.is_common:
                yield "1:"
                yield from self.words(section, it.at, it.end)
                continue
            place, = self.relocations(section, it.at, it.end)
            yield (f"frame {quoted(self.found.target(place.symbol))},{place.addend},{it.size},"
                   f"{it.end - it.at - frames.HEAD}")
            yield from self.words(section, it.at + frames.REST, it.end)

    def words(self, section, at, end):
        """Yields lines of numbers, as long as the section's alignment and the ends allow."""
        size = next(it for it in WORDS if not (section.align | at | end) % it)
        if section.flags & elf.EXECUTE or section.name == frames.NAME:
            size = 1
        shape = "#04x" if section.flags & elf.EXECUTE else "d" if size == 1 else "#x"
        for first in range(at, end, ROW):
            row = section.content[first:min(first + ROW, end)]
            numbers = (int.from_bytes(row[it:it + size], "little")
                       for it in range(0, len(row), size))
            yield f"\t.{WORDS[size]} " + ",".join(f"{it:{shape}}" for it in numbers)

    def width(self, section, relocation):
        return self.machine.words.get(relocation.kind) or self.unknown(section, relocation)

    def unknown(self, section, relocation):
        raise elf.Fault(f"section {section.name}: a relocation of kind {relocation.kind} isn't known")
