"""The clauses of a crate's functions and types, by the names that an edit's line `clause:` gives."""
import collections
import functools
import re

from edits import source

CLAUSE = re.compile(r"\b(?:requires|ensures) (\w* ?)\{")
# the first line of an impl or a trait
TYPE = re.compile(r"(?:pub )?(?:unsafe )?(?:impl|trait)\b")


def states(contract, name):
    """Whether a contract has a clause of this name, or one without a name that cites it."""
    heads = [*CLAUSE.finditer(contract)]
    ends = [*(it.start() for it in heads[1:]), len(contract)]
    return any(head[1].strip() == name or not head[1]
               and re.search(rf"\b{name}\b", contract[head.end():end])
               for head, end in zip(heads, ends))


def contract_of(lines, first):
    """Returns the lines of a function from its head to its body."""
    indent = re.match(" *", lines[first])[0]
    last = source.end_of(lines, first)
    ends = (at for at in range(first, last + 1)
            if lines[at] == f"{indent}{{" or lines[at].endswith(";"))
    return "\n".join(lines[first:next(ends, first) + 1])


@functools.cache
def blocks(folder):
    """Returns the contract of each function of a crate, and each impl and trait, by their names."""
    found = collections.defaultdict(list)
    for path in sorted((folder / "src").rglob("*.rt")):
        lines = path.read_text(encoding="utf-8").split("\n")
        for first, line in enumerate(lines):
            if head := source.FUNCTION.match(line):
                found[head[2]].append(contract_of(lines, first))
            elif TYPE.match(line):
                block = "\n".join(lines[first:source.end_of(lines, first) + 1])
                for name in set(re.findall(r"\w+", line)):
                    found[name].append(block)
    return found


def is_stated(crate, name, owner):
    """Whether a function or type of this name has the clause: in the crate, or in one below it.

    A type's clause is a ghost member of one of its impls, as `invariant`, or a clause of its trait.
    """
    return any(states(block, name) or re.search(rf"\bghost {name} =", block)
               for folder in (crate, *sorted(crate.parent.iterdir()))
               for block in blocks(folder).get(owner, ()))
