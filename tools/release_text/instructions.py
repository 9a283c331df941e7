# SPDX-License-Identifier: MIT OR Apache-2.0
"""The instructions of an object file as text that gas encodes as its compiler did.

gas has one encoding for a text where a compiler may choose another. A prefix, such as `{load}` for
the second one of a move, asks for the other. What gas still encodes otherwise is written as bytes.
"""
import re
import subprocess
import tempfile
from collections import namedtuple
from pathlib import Path

import elf
import machines

LONG = 5  # bytes of the shortest branch of x86-64 that isn't a short one
SLOT = 16  # bytes for an instruction that is tried, more than the longest has
LINE = re.compile(r"\s*([0-9a-f]+):\t[0-9a-f ]+?\s*\t(.*)$")
ERROR = re.compile(r":(\d+): Error")
# `text`: without a branch's target, and None if it has none. `target`: the offset that the branch
# leads to, or None. `shown`: the text as objdump prints it.
Instruction = namedtuple("Instruction", "section at end text target shown")


def plain(text):
    """Returns an instruction without objdump's comment, with one blank after its name only."""
    return re.sub(r",\s+", ",", re.sub(r"\s+", " ", re.sub(r"\s+(#|//) .*$", "", text.strip())))


def assembled(machine, lines, folder):
    """Assembles lines. Returns the object, or the numbers of the lines that gas refuses."""
    source, made = Path(folder, "tried.s"), Path(folder, "tried.o")
    source.write_text("\n".join(lines) + "\n", encoding="utf-8")
    ran = subprocess.run([f"{machine.prefix}as", "-o", made, source], capture_output=True,
                         text=True, check=False)
    if not ran.returncode:
        return elf.Object(made), set()
    refused = {int(it[1]) for it in ERROR.finditer(ran.stderr)}
    if not refused:
        raise elf.Fault(f"{machine.prefix}as failed: {ran.stderr.strip()}")
    return None, refused


class Code:
    """The instructions of each section of an object file, by their offsets."""

    def __init__(self, path, found, reference):
        self.machine, self.found, self.reference = machines.of_object(found), found, reference
        self.listed = {}  # the instructions of a section's index
        for name, lines in self.disassembled(path):
            section = next(it for it in found.kept if it.name == name)
            ends = [at for at, _ in lines[1:]] + [section.size]
            self.listed[section.index] = [
                self.instruction(section, at, end, text) for (at, text), end in zip(lines, ends)]
        self.texts = {}  # by section and offset; what has none here is written as bytes
        self.settle()

    def disassembled(self, path):
        """Yields the name of each section with code, with the offset and the text of each line."""
        ran = subprocess.run([f"{self.machine.prefix}objdump", "-d", "-z", "-w", path], check=True,
                             capture_output=True, text=True)
        for part in ran.stdout.split("Disassembly of section ")[1:]:
            head, _, body = part.partition(":\n")
            found = [LINE.match(line) for line in body.splitlines()]
            yield head, [(int(it[1], 16), plain(it[2])) for it in found if it]

    def instruction(self, section, at, end, text):
        here = [it for it in self.found.relocations.get(section.index, []) if at <= it.offset < end]
        if len(here) == 1:
            named = self.machine.symbolic(text, here[0], self.reference, end)
            return Instruction(section, at, end, named, None, text)
        if here or "(bad)" in text or ".inst" in text:
            return Instruction(section, at, end, None, None, text)
        branch = machines.ADDRESS.search(text)
        if branch and self.machine.is_branch.match(text):
            return Instruction(section, at, end, text[:branch.start()], int(branch[1], 16), text)
        return Instruction(section, at, end, text, None, text)

    def keep_long_branches(self, section):
        """Asks for the long form of each long branch of a section.

        gas takes the shortest branches that are possible, and a compiler may have found longer
        ones: each of two that are within the other's reach needs the long form if the other has it.
        """
        for it in self.listed.get(section.index, ()):
            place = section.index, it.at
            if it.target is not None and it.end - it.at >= LONG and place in self.texts:
                self.texts[place] = "{disp32} " + it.text

    def starts(self, section):
        """The offsets at which a branch can lead to a label."""
        return {it.at for it in self.listed[section.index]} | {section.size}

    def settle(self):
        """Finds the text of each instruction for which gas has the object's bytes."""
        starts = {index: self.starts(self.found.sections[index]) for index in self.listed}
        waiting = [it for listed in self.listed.values() for it in listed if it.text is not None
                   and (it.target is None or it.target in starts[it.section.index])]
        for form in self.machine.forms:
            made = self.tried(form, waiting)
            for it in waiting:
                if made.get(it) == it.section.content[it.at:it.end]:
                    self.texts[it.section.index, it.at] = form + it.text
            waiting = [it for it in waiting if (it.section.index, it.at) not in self.texts]

    def tried(self, form, instructions):
        """Returns the bytes that gas makes of each instruction in this form."""
        # (a branch to a place as far away has the same size)
        lines = {it: form + it.text + (f". + {it.target - it.at}" if it.target is not None else "")
                 for it in instructions}
        with tempfile.TemporaryDirectory() as folder:
            made, refused = None, {0}
            while refused and lines:
                text = [part for line in lines.values() for part in (f".balign {SLOT}", line)]
                made, refused = assembled(self.machine, [*text, f".balign {SLOT}"], folder)
                lines = {it: line for number, (it, line) in enumerate(lines.items())
                         if 2 * number + 2 not in refused}
        if made is None or not lines:
            return {}
        content = next(it.content for it in made.sections if it.name == ".text")
        return {it: content[SLOT * number:SLOT * number + it.end - it.at]
                for number, it in enumerate(lines)}
