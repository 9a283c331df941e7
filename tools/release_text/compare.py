# SPDX-License-Identifier: MIT OR Apache-2.0
"""Compares two object files: each section, relocation and symbol, and the order of all sections but
.comment, whose place is the assembler's.

A local symbol is a place in its section, so a relocation may name either. A call of one needs no
entry of a procedure linkage table.
"""
import elf

X86_PC32, X86_PLT32 = 2, 4
X86_64 = 62


def places(found, section):
    """Returns what the relocations of a section refer to, by their offsets."""
    listed = {}
    for at, kind, symbol, addend in found.relocations.get(section.index, []):
        named = found.symbols[symbol]
        if named.binding == elf.LOCAL and found.is_here(named):
            kind = X86_PC32 if (found.machine, kind) == (X86_64, X86_PLT32) else kind
            listed[at] = (kind, found.sections[named.section].name, named.value + addend)
        else:
            listed[at] = (kind, named.name, addend)
    return listed


def symbols(found):
    """Returns each named symbol with its section's name."""
    return {it._replace(section=found.sections[it.section].name if found.is_here(it)
                        else it.section) for it in found.named()}


def first_difference(one, other):
    return next((at for at, (a, b) in enumerate(zip(one, other)) if a != b),
                min(len(one), len(other)))


def of_section(one, section, other):
    """Yields how a section differs from the other object's section of the same name."""
    same = next((it for it in other.kept if it.name == section.name), None)
    if same is None:
        yield f"section {section.name} isn't there"
        return
    for name in ("kind", "align", "entry", "size"):
        if getattr(section, name) != getattr(same, name):
            yield (f"section {section.name}: {name} is {getattr(same, name)} instead of "
                   f"{getattr(section, name)}")
    if (section.flags ^ same.flags) & ~elf.INFO_LINK:
        yield f"section {section.name}: other flags"
    if section.content != same.content:
        at = first_difference(section.content, same.content)
        yield f"section {section.name}: other bytes at {at:#x}"
    wanted, got = places(one, section), places(other, same)
    for at in sorted(wanted.keys() | got.keys()):
        if wanted.get(at) != got.get(at):
            yield (f"section {section.name}: relocation {got.get(at)} instead of "
                   f"{wanted.get(at)} at {at:#x}")


def differences(one, other):
    """Yields a sentence for each difference of two object files."""
    if one.machine != other.machine:
        yield f"machine {other.machine} instead of {one.machine}"
    for section in one.kept:
        yield from of_section(one, section, other)
    names = {it.name for it in one.kept}
    yield from (f"section {it.name} is too much" for it in other.kept if it.name not in names)
    names, others = ([it.name for it in found.kept if it.name != elf.COMMENT]
                     for found in (one, other))
    if names != others and sorted(names) == sorted(others):
        at = first_difference(names, others)
        yield f"section {others[at]} is where {names[at]} should be"
    for symbol in sorted(symbols(one) ^ symbols(other), key=str):
        is_ours = symbol in symbols(one)
        yield f"symbol {symbol.name}: {'missing' if is_ours else 'too much'}: {symbol}"
