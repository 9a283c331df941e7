#!/usr/bin/env python3
# SPDX-License-Identifier: MIT OR Apache-2.0
"""Prints the library's assembler text for a kernel, from the text in release/ and its object.

    tools/c/for_kernels.py release/x86_64/tkcore.s OBJECT >kernel.s

LLVM's code has two habits that a kernel doesn't allow: it keeps values below the stack pointer,
where an interrupt overwrites them, and it expects a stack that is aligned to 16 bytes. The printed
text differs from the given one in these lines only:

  - An access of 16 bytes to memory that must be aligned becomes the one that need not be.
  - A function that keeps values below the stack pointer moves it down by 128 bytes after it has
    saved registers, and up again before it restores them.
  - The tables for unwinding are left out.

It ends with status 1 and one line at code for which these changes aren't enough. It needs objdump.
"""
import re
import subprocess
import sys

FRAME = 128  # bytes: the whole red zone
DOWN, UP = f"\tlea    -{FRAME}(%rsp),%rsp", f"\tlea    {FRAME}(%rsp),%rsp"
UNALIGNED = {"movaps": "movups", "movapd": "movupd", "movdqa": "movdqu"}
ANY_PLACE = re.compile(r"mov(u[ps][sd]|dqu|q|d|[hl]p[sd]|s[sd])$|pmov[sz]x|cvt|pinsr|pextr")
# the beginning of a section; macros of tools/release_text begin those of functions
SECTION = re.compile(r'(?:\t\.section|(function|public)) ("[^"\\]*"|[^,\s\\"]+)')
TABLE = re.compile(r'jumps ("[^"]*"|[^,\s]+),([\d,]+)$')
PLACE = re.compile(r'\t\.(?:long|quad) ("[^"]*"|[^\s+-]+)')
ON_STACK = re.compile(r"(-?0x[0-9a-f]+)?\(%rsp")
MOVES_STACK = re.compile(r"\t(call|enter|leave)|%[re]?sp$|[^(]%[re]?sp\b(?!,\d|\))")


class Refused(Exception):
    """Why these changes don't make a text for kernels, as a sentence."""


def is_code(line):
    return line.startswith("\t") and line[1] not in "./"


def unaligned(line):
    """Returns an instruction whose accesses to memory may have any place."""
    if not is_code(line) or "%xmm" not in line or "(" not in line or "(%rip" in line:
        return line
    name, rest = re.match(r"\t(\S+)(.*)", line).groups()
    if name not in UNALIGNED and not ANY_PLACE.match(name):
        raise Refused(f"{line.strip()}: it may need an aligned place")
    return f"\t{UNALIGNED.get(name, name)}{rest}"


def uses_red_zone(lines):
    return any(is_code(it) and re.search(r"-0x[0-9a-f]+\(%rsp", it) for it in lines)


def raised(line):
    """Returns an instruction whose places on the stack are counted from a lower stack pointer."""
    if not is_code(line):
        return line
    if MOVES_STACK.search(line):
        raise Refused(f"{line.strip()}: it moves the stack pointer of a function with a red zone")
    return ON_STACK.sub(lambda it: f"{int(it[1] or '0', 16) + FRAME:#x}(%rsp", line)


def framed(lines):
    """Returns a function whose values on the stack are above the stack pointer."""
    found, is_saving, is_restoring = [], True, False
    for line in lines:
        word = line.split()[0] if is_code(line) else ""
        if is_saving and word and word != "push":
            found.append(DOWN)
            is_saving = False
        if word in ("pop", "ret") and not is_restoring:
            found.append(UP)
        if word == "push" and not is_saving or is_restoring and word not in ("pop", "ret"):
            raise Refused(f"{line.strip()}: a function with a red zone saves or restores here")
        if word[:1] == "j" and not re.search(r" \d+[bf]$|\*%", line):
            raise Refused(f"{line.strip()}: a function with a red zone is left here")
        is_restoring = word == "pop" or is_restoring and not word
        found.append(line if word in ("push", "pop") else raised(line))
    return found


def addresses(path, section):
    """Returns the offsets of a section's instructions, in order."""
    words = ["objdump", "-d", "-z", "--no-show-raw-insn", "-j", section, path]
    said = subprocess.run(words, check=True, capture_output=True, text=True).stdout
    return [int(it[1], 16) for it in re.finditer(r"^ *([0-9a-f]+):\t", said, re.M)]


def labelled(lines, section, path, targets):
    """Returns the lines with a label at each of the section's offsets that tables contain."""
    code = [at for at, it in enumerate(lines) if is_code(it) or it.startswith("\t.byte")]
    places = dict(zip(addresses(path, section), code, strict=True))
    found = list(lines)
    for offset in sorted(targets, reverse=True):
        if offset not in places:
            raise Refused(f"{section}+{offset}: no instruction begins there")
        found.insert(places[offset], f"{label(section, offset)}:")
    return found


def label(section, offset):
    return f'".Lat_{offset}_of_{section}"'


def sections(text):
    """Returns each section's name and lines, in order, with those before the first one."""
    found, name = [("", [])], ""
    for line in text.splitlines():
        if is_new := SECTION.match(line):
            name = (".text." if is_new[1] else "") + is_new[2].strip('"')
            found.append((name, []))
        found[-1][1].append(line)
    return found


def tables(parts, moved):
    """Yields the part and the line of each row of a table for jumps, with the section that it leads
    to and the offsets there, if that one has a red zone."""
    for part, (_, lines) in enumerate(parts):
        for at, line in enumerate(lines):
            row = TABLE.match(line) or PLACE.match(line)
            if not row or (section := row[1].strip('"')) not in moved:
                continue
            if row.re is PLACE:
                raise Refused(f"{line.strip()}: a place in a function with a red zone")
            yield part, at, section, [int(it) for it in row[2].split(",")]


def without_size(line):
    """Returns a line of a function that has another size than the text's, with none."""
    return re.sub(r",\d+$", ",0", line) if SECTION.match(line) and line[0] != "\t" else line


def changed(text, path):
    """Returns the text for kernels."""
    parts = [it for it in sections(text) if it[0] != ".eh_frame"]
    moved = {name: set() for name, lines in parts if uses_red_zone(lines)}
    for part, at, section, offsets in tables(parts, moved):
        moved[section].update(offsets)
        parts[part][1][at] = "\t.long " + ",".join(f"{label(section, it)}-1b" for it in offsets)
    found = []
    for name, lines in parts:
        if name in moved and any(map(is_code, lines)):
            lines = framed(labelled(lines, name, path, moved[name]))
            lines = [without_size(it) for it in lines if not it.startswith("\t.size")]
        found += map(unaligned, lines)
    return "\n".join(found) + "\n"


def main(text, path):
    with open(text, encoding="utf-8") as file:
        print(changed(file.read(), path), end="")


if __name__ == "__main__":
    if len(sys.argv) != 3:
        sys.exit(__doc__)
    try:
        main(*sys.argv[1:])
    except Refused as why:
        sys.exit(f"for_kernels: {why}")
