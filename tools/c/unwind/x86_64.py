# SPDX-License-Identifier: MIT OR Apache-2.0
"""The instructions of x86-64, and what each changes of the caller's frame and registers."""
import re

from state import (BRANCH, END, JUMP, NEXT, RETURN, Instruction, Lost, State, loaded, moved, stored,
                   written)

NUMBER = 62  # of the machine, in an object file
OBJDUMP = ("objdump", "-M", "intel")
STACK, RETURNS_TO = 7, 16  # rsp and the return address, by their numbers in DWARF
KEPT = (3, 6, 12, 13, 14, 15)  # rbx, rbp and r12 to r15: a function leaves them as they were
AT_ENTRY = State(8, frozenset(KEPT), frozenset(), frozenset())
ENTRY = "\t.byte 0x80 + 16\n\t.uleb128 1\n"  # the return address is 1 * 8 bytes below the frame's

PREFIXES = {"bnd", "notrack", "lock", "rep", "repz", "repnz", "data16", "cs", "ds", "es"}
# They change rsp by another size than 8, rsp, rbp or rbx without naming it, a second operand, or
# the flow in their own way. (`xchg ax,ax` does nothing.)
UNKNOWN = re.compile(r"(push|pop)([fw]| WORD| [^r].$| r\d+w)|enter|leave|xchg(?! ax,ax$)|xadd|"
                     r"cmpxchg|cpuid|sys|int |iret|lret|loop|xbegin|\(bad\)|\.byte")
FILLER = re.compile("nop|int3|ud2|xchg ax,ax")
ENDS = {"ud2", "int3", "hlt"}
SIZES = {"BYTE": 1, "WORD": 2, "DWORD": 4, "QWORD": 8, "XMMWORD": 16}
ON_STACK = re.compile(r"(\w+) PTR \[rsp(?:([+-]0x[0-9a-f]+))?\]")
STACK_MOVES = re.compile(r"(sub|add) rsp,(0x[0-9a-f]+)|lea rsp,\[rsp([+-]0x[0-9a-f]+)\]")


def numbered():
    """The DWARF number of each register, by each of its names."""
    found = {f"r{n}{suffix}": n for n in range(8, 16) for suffix in ("", "d", "w", "b")}
    for number, name in enumerate("ax dx cx bx si di bp sp".split()):
        low = (name[0] + "l", name[0] + "h") if name[1] == "x" else (name + "l",)
        found |= dict.fromkeys(("r" + name, "e" + name, name, *low), number)
    return found


NUMBERS = numbered()


def instruction(section, relocations, at, end, text):
    """Reads a line of objdump."""
    words = re.split("[#<]", text)[0].split()
    while len(words) > 1 and words[0] in PREFIXES:
        words.pop(0)
    operands = " ".join(words[1:])
    target = int(operands, 16) if re.fullmatch("[0-9a-f]+", operands) else None
    filled = next((at for at in range(at + 1, end) if at in relocations), None)
    place = None
    if match := re.search(r"\[rip[+-]0x[0-9a-f]+\] +# ([0-9a-f]+)", text):
        place = (section, int(match[1], 16))
        if filled:
            place = (relocations[filled][0], relocations[filled][1] + end - filled)
    return Instruction(at, end, text, words[0], operands, target, place, bool(filled))


def flow(given):
    if given.mnemonic == "ret":
        return RETURN
    if given.mnemonic in ENDS:
        return END
    if not given.mnemonic.startswith("j"):
        return NEXT
    return JUMP if given.mnemonic == "jmp" else BRANCH


def pointed(state, given):
    """The state with what the instruction makes of the registers that lead to jump tables."""
    operands = given.operands.split(",")
    first, second = NUMBERS.get(operands[0]), NUMBERS.get(operands[-1])
    if first is None or given.mnemonic in ("cmp", "test", "push", "jmp", "call"):
        return state
    tables = {pair for pair in state.tables if pair[0] != first}
    if given.mnemonic == "lea" and given.place:
        tables.add((first, given.place))
    elif given.mnemonic == "add":
        added = (first, second)
        tables |= {(first, table) for register, table in state.tables if register in added}
    return state._replace(tables=frozenset(tables))


def after(given, state):
    """The state after an instruction. An instruction that names a kept register is one that saves
    it or restores it, or else the register no longer has the caller's value."""
    state = pointed(state, given)
    mnemonic, operands = given.mnemonic, given.operands
    first, _, second = operands.partition(",")
    if UNKNOWN.match(f"{mnemonic} {operands}"):
        raise Lost(f"{given.text}: it isn't known what it changes")
    if mnemonic == "call":
        return moved(state, 0)
    if mnemonic == "push":
        state = moved(state, 8)
        return stored(state, state.depth, 8, NUMBERS.get(operands))
    if mnemonic == "pop" and NUMBERS.get(operands, STACK) != STACK:
        return moved(loaded(state, state.depth, NUMBERS[operands]), -8)
    if match := STACK_MOVES.fullmatch(f"{mnemonic} {operands}"):
        return moved(state, int(match[2] or match[3], 16) * (1 if match[1] == "sub" else -1))
    if mnemonic == "pop" or NUMBERS.get(first) == STACK and mnemonic not in ("cmp", "test"):
        raise Lost(f"{given.text}: it changes the stack pointer by an unknown number")
    if place := ON_STACK.fullmatch(first):
        at = state.depth - int(place[2] or "0", 16)
        whole = mnemonic == "mov" and second in NUMBERS and place[1] == "QWORD"
        state = stored(state, at, SIZES.get(place[1], 64), NUMBERS[second] if whole else None)
        return state if whole else written(state, {NUMBERS.get(second)})
    if (place := ON_STACK.fullmatch(second)) and mnemonic == "mov" and place[1] == "QWORD":
        return loaded(state, state.depth - int(place[2] or "0", 16), NUMBERS.get(first))
    return written(state, {NUMBERS.get(word) for word in re.findall(r"\w+", operands)})
