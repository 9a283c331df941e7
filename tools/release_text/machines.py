# SPDX-License-Identifier: MIT OR Apache-2.0
"""What an object's assembler text depends on its processor for."""
import re
from dataclasses import dataclass, field

import elf

ADDRESS = re.compile(r"([0-9a-f]+) <.*>$")  # the end of a branch, as objdump prints its target


@dataclass(frozen=True)
class Machine:
    """A processor, with the names of its binary utilities."""

    name: str
    number: int
    prefix: str
    mark: str  # before the kind of a section or a symbol
    names: dict = field(hash=False)  # of relocations, by their numbers
    words: dict = field(hash=False)  # of data: the bytes, and whether they count from their place
    is_branch: re.Pattern
    forms: tuple = ("",)  # prefixes that choose an encoding, in the order in which they are tried

    def symbolic(self, text, relocation, reference, end):
        """Returns an instruction's text with what its relocation names, or None."""
        raise NotImplementedError


class X8664(Machine):
    """x86-64, in the syntax of AT&T."""

    PC32, PLT32 = 2, 4

    def symbolic(self, text, relocation, reference, end):
        if relocation.kind not in (self.PC32, self.PLT32):
            return None
        place = reference(relocation.symbol, relocation.addend + end - relocation.offset)
        if "(%rip)" in text:
            return re.sub(r"-?(0x[0-9a-f]+)?\(%rip\)", lambda _: f"{place}(%rip)", text, count=1)
        return ADDRESS.sub(lambda _: place, text)


class AArch64(Machine):
    """AArch64."""

    PAGE = {275}  # ADR_PREL_PG_HI21
    BRANCHES = {274, 280, 282, 283}  # ADR_PREL_LO21, CONDBR19, JUMP26, CALL26
    LOW = {277, 278, 284, 285, 286, 299}  # ADD_ABS_LO12_NC, LDST8 .. LDST128_ABS_LO12_NC

    def symbolic(self, text, relocation, reference, end):
        place = reference(relocation.symbol, relocation.addend)
        if relocation.kind in self.PAGE | self.BRANCHES:
            return ADDRESS.sub(lambda _: place, text)
        if relocation.kind not in self.LOW:
            return None
        if text.startswith("add"):
            return re.sub(r"#0x[0-9a-f]+", lambda _: f":lo12:{place}", text)
        return re.sub(r"\[(\w+)(?:,#\d+)?\]", lambda found: f"[{found[1]},:lo12:{place}]", text)


X86_64 = X8664("x86_64", 62, "", "@",
               {1: "R_X86_64_64", 2: "R_X86_64_PC32", 4: "R_X86_64_PLT32"},
               {1: (8, False), 2: (4, True)},
               re.compile(r"(?:j\w+|call|bnd jmp|loop\w*)\s"), ("", "{load} ", "{disp8} ", "{disp32} "))
AARCH64 = AArch64("aarch64", 183, "aarch64-linux-gnu-", "%",
                  {274: "R_AARCH64_ADR_PREL_LO21", 275: "R_AARCH64_ADR_PREL_PG_HI21",
                   280: "R_AARCH64_CONDBR19", 282: "R_AARCH64_JUMP26", 283: "R_AARCH64_CALL26"},
                  {257: (8, False), 258: (4, False), 260: (8, True), 261: (4, True)},
                  re.compile(r"(?:b|bl|b\.\w+|cbn?z|tbn?z|adr)\s"))
BY_NAME = {it.name: it for it in (X86_64, AARCH64)}


def of_object(found):
    """Returns the machine of an object file."""
    for machine in BY_NAME.values():
        if machine.number == found.machine:
            return machine
    raise elf.Fault(f"its machine has the number {found.machine}, which isn't known")
