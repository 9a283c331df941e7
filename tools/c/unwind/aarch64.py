# SPDX-License-Identifier: MIT OR Apache-2.0
"""The instructions of AArch64, and what each changes of the caller's frame and registers."""
import re

from state import (BRANCH, END, JUMP, NEXT, RETURN, Instruction, Lost, State, loaded, moved, stored,
                   written)

NUMBER = 183  # of the machine, in an object file
OBJDUMP = ("aarch64-linux-gnu-objdump",)
STACK, RETURNS_TO = 31, 30  # sp and x30, by their numbers in DWARF
# x19 to x30, of which x30 has the return address, and the low halves of v8 to v15
KEPT = (*range(19, 31), *range(72, 80))
AT_ENTRY = State(0, frozenset(KEPT), frozenset(), frozenset())
ENTRY = ""

# They change x30 or the flow in their own way.
UNKNOWN = re.compile(r"pac|aut|xpac|ret[ab]|ret x|bl?ra|eret|svc|hvc|smc|ldra|\(bad\)|\.")
FILLER = re.compile("nop|udf|brk")
ENDS = {"brk", "udf", "hlt"}
BRANCHES = re.compile(r"b\.\w+|cbn?z|tbn?z")
ADDRESS = re.compile(r"([0-9a-f]+) <.*>$")
STACK_MOVES = re.compile(r"(sub|add) sp, sp, #(0x[0-9a-f]+)(, lsl #12)?")
# an access of the stack: the registers, the place, and what sp moves by, before or after it
ON_STACK = re.compile(r"([^\[]+), \[sp(?:, #(-?\d+))?\](!|, #-?\d+)?")
WHOLE = {"str", "stp", "stur", "ldr", "ldp", "ldur"}  # with a register of 8 bytes
SIZES = {"b": 1, "h": 2, "w": 4, "s": 4, "x": 8, "d": 8, "q": 16}

NUMBERS = {f"{letter}{n}": n for n in range(31) for letter in "xw"}
NUMBERS |= {f"{letter}{n}": 64 + n for n in range(32) for letter in "vqdshb"}


def instruction(section, relocations, at, end, text):
    """Reads a line of objdump. The operands are without an address of code, such as `b8 <f+0xb8>`."""
    del section  # (no instruction has an address of a jump table)
    mnemonic, _, operands = text.split("//")[0].strip().partition("\t")
    target = None
    if address := ADDRESS.search(operands):
        operands = operands[:address.start()].removesuffix(", ")
        is_jump = mnemonic == "b" or BRANCHES.fullmatch(mnemonic)
        target = int(address[1], 16) if is_jump else None
    return Instruction(at, end, text, mnemonic, operands, target, None, at in relocations)


def flow(given):
    if given.mnemonic == "ret":
        return RETURN
    if given.mnemonic in ENDS:
        return END
    if given.mnemonic in ("b", "br"):
        return JUMP
    return BRANCH if BRANCHES.fullmatch(given.mnemonic) else NEXT


def size_of(mnemonic, register):
    """The bytes that an access has for one of its registers."""
    return SIZES[mnemonic[-1] if mnemonic[-1] in "bh" else register[0]]


def accessed(mnemonic, access, state):
    """The state after a store or a load at the stack pointer."""
    registers, place, move = access[1].split(", "), int(access[2] or "0"), access[3]
    if move == "!":
        state, place = moved(state, -place), 0
    for register in registers:
        size, number = size_of(mnemonic, register), NUMBERS.get(register)
        is_whole, at = mnemonic in WHOLE and size == 8, state.depth - place
        if mnemonic.startswith("st"):
            state = stored(state, at, size, number if is_whole else None)
            state = state if is_whole else written(state, {number})
        else:
            state = loaded(state, at, number) if is_whole else written(state, {number})
        place += size
    return moved(state, -int(move[3:])) if move and move != "!" else state


def after(given, state):
    """The state after an instruction. An instruction that names a kept register is one that saves
    it or restores it, or else the register no longer has the caller's value."""
    mnemonic, operands = given.mnemonic, given.operands
    if UNKNOWN.match(f"{mnemonic} {operands}"):
        raise Lost(f"{given.text}: it isn't known what it changes")
    if mnemonic in ("bl", "blr"):
        return written(state, {RETURNS_TO})
    if match := STACK_MOVES.fullmatch(f"{mnemonic} {operands}"):
        size = int(match[2], 16) << (12 if match[3] else 0)
        return moved(state, size if match[1] == "sub" else -size)
    access = ON_STACK.fullmatch(operands)
    if access and re.match("st[pru]|ld[pru]", mnemonic):
        return accessed(mnemonic, access, state)
    is_moved = re.search(r"\[sp[^\]]*\](!|,)", operands) or re.match("w?sp,", operands)
    if is_moved and mnemonic not in ("cmp", "cmn", "tst"):
        raise Lost(f"{given.text}: it changes the stack pointer by an unknown number")
    return written(state, {NUMBERS.get(word) for word in re.findall(r"\w+", operands)})
