# SPDX-License-Identifier: MIT OR Apache-2.0
"""Where the caller's frame and its registers are before an instruction."""
from collections import namedtuple

# How a function goes on after an instruction: to the next one, to its target, to either, back to
# the caller, or not at all.
NEXT, JUMP, BRANCH, RETURN, END = "next", "jump", "branch", "return", "end"

# `target`: the offset that a direct jump names. `place`: what `[rip + x]` refers to, as (section,
# offset). `leaves`: the linker decides its target.
Instruction = namedtuple("Instruction", "at end text mnemonic operands target place leaves")

# `depth`: bytes from the stack pointer up to the canonical frame address, which is the caller's
# stack pointer. `held`: the kept registers that have the caller's values. `saved`: (register, bytes
# below the canonical frame address) of the caller's values on the stack. `tables`: (register, the
# jump table that it is at, or that the target in it is from).
State = namedtuple("State", "depth held saved tables")


class Lost(Exception):
    """What can't be followed."""


def moved(state, size):
    """The state after the stack pointer fell by `size`. Below it nothing stays saved."""
    depth = state.depth + size
    return state._replace(depth=depth, saved=frozenset(s for s in state.saved if s[1] <= depth))


def stored(state, place, size, register=None):
    """The state after a store at `place` below the frame's address, of a whole register or not."""
    saved = {(kept, at) for kept, at in state.saved if at <= place - size or place <= at - 8}
    if register in state.held:
        saved.add((register, place))
    return state._replace(saved=frozenset(saved))


def written(state, registers):
    return state._replace(held=state.held - registers)


def loaded(state, place, register):
    if (register, place) in state.saved:
        return state._replace(held=state.held | {register})
    return written(state, {register})
