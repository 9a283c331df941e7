# SPDX-License-Identifier: MIT OR Apache-2.0
"""Follows each path through a function, to find the caller's frame and the caller's registers
before each instruction. A path that it can't follow raises Lost."""
from state import END, JUMP, NEXT, RETURN, Lost, State


def followers(instruction, file, function, state):
    """Where the function goes on after an instruction, and whether it may be left there."""
    flow = file.machine.flow(instruction)
    if flow in (RETURN, END):
        return set(), flow == RETURN
    if flow == NEXT:
        return {instruction.end}, False
    following = set() if flow == JUMP else {instruction.end}
    target = instruction.target
    if target is None:
        register = file.machine.NUMBERS.get(instruction.operands)
        targets = [file.targets(function, table) for at, table in state.tables if at == register]
        if not any(targets):
            raise Lost(f"{instruction.text}: its jump table isn't known")
        return set().union(*targets), False
    if instruction.leaves or not function.start <= target < function.end:
        return following, True
    return following | {target}, False


def merged(one, other):
    if one.depth != other.depth:
        raise Lost("paths come here with the stack pointer "
                   f"{one.depth} and {other.depth} below the caller's")
    return State(one.depth, *(a & b for a, b in zip(one[1:], other[1:])))


def follow(file, function, code, states, at):
    """Updates the states after the instruction at `at`, and returns where they changed."""
    if at not in code:
        raise Lost("no instruction begins where a path leads")
    state, entry = file.machine.after(code[at], states[at]), file.machine.AT_ENTRY
    reached, is_left = followers(code[at], file, function, state)
    if is_left and (state.depth, state.held) != (entry.depth, entry.held):
        raise Lost(f"{code[at].text}: the caller's stack pointer or registers aren't restored")
    changed = []
    for follower in reached:
        known = merged(states[follower], state) if follower in states else state
        if states.get(follower) != known:
            states[follower] = known
            changed.append(follower)
    return changed


def states_of(file, function):
    """The state before each instruction of a function that a path reaches."""
    code = file.code(function)
    states = {function.start: file.machine.AT_ENTRY}
    waiting = [function.start]
    while waiting:
        at = waiting.pop()
        try:
            waiting += follow(file, function, code, states, at)
        except Lost as lost:
            raise Lost(f"at {at:#x}: {lost}") from None
    for at in sorted(code.keys() - states.keys()):
        if not file.machine.FILLER.match(f"{code[at].mnemonic} {code[at].operands}"):
            raise Lost(f"at {at:#x}: {code[at].text}: no path leads here")
    return states
