# SPDX-License-Identifier: MIT OR Apache-2.0
"""Numbers for the places that a section's branches lead to, from 1 in each function, and labels for
names that not every assembler takes."""
import re
from collections import Counter


def begins(functions, branches):
    """Returns the functions' offsets, in order, that no branch crosses or leads to from before."""
    found, spans, last, reached = [], sorted(map(sorted, branches)), 0, -1
    for start in sorted(functions):
        while last < len(spans) and spans[last][0] < start:
            reached = max(reached, spans[last][1])
            last += 1
        if reached < start:
            found.append(start)
    return found


def numbered(functions, branches):
    """Returns the number of each place, from pairs of a branch and the place that it leads to."""
    numbers, number, starts = {}, 0, [*begins(functions, branches), None]
    for place in sorted({place for _, place in branches}):
        while starts[0] is not None and starts[0] <= place:
            del starts[0]
            number = 0
        number += 1
        numbers[place] = number
    return numbers


def named(numbers, branch, place):
    """Returns how a branch names its place: the next such label, or the last. "" if it is None."""
    return "" if place is None else f"{numbers[place]}{'f' if branch < place else 'b'}"


def aliases(names):
    """Returns a local label for each name with # or ', which gas 2.35 refuses in an operand."""
    whole = {it: spelled(it) for it in names if re.search("[#']", it)}
    short = {it: spelled(re.sub(r"::<[^<>]*>", "", it)) for it in whole}
    often = Counter(short.values())
    return {it: label if often[label] == 1 else whole[it] for it, label in short.items()}


def spelled(name):
    return ".L" + re.sub(r"[^\w.$]+", ".", name)
