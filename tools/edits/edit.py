"""Wrong edits: what each replaces, and which functions it changes."""
import dataclasses
import functools
import pathlib

import rattle
from edits import contract, source


@dataclasses.dataclass(frozen=True)
class Pair:
    """A text that a file contains once, and its replacement."""

    file: str
    old: str
    new: str


@dataclasses.dataclass(frozen=True)
class Edit:
    """A file `.edit` of a crate."""

    path: pathlib.Path

    @property
    def crate(self):
        return self.path.parent.parent

    @property
    def label(self):
        return f"{self.crate.name}/{self.path.name}"

    @functools.cached_property
    def pairs(self):
        file, old, found = None, None, []
        for line in self.path.read_text(encoding="utf-8").splitlines():
            word, _, rest = line.partition(":")
            if word == "file":
                file = rest.strip()
            elif word == "old":
                old = rest.removeprefix(" ")
            elif word == "new":
                found.append(Pair(file, old, rest.removeprefix(" ")))
        return found

    @functools.cached_property
    def clauses(self):
        """The clauses that its lines `clause:` name: those that the wrong code doesn't meet."""
        lines = self.path.read_text(encoding="utf-8").splitlines()
        return [it.partition(":")[2].strip() for it in lines if it.startswith("clause:")]

    def unknown_clauses(self):
        """Returns the named clauses that no contract has.

        `NAME of OWNER` is a clause of this function or type, and a name alone one of a function
        that the edit changes.
        """
        changed = [it.name for it in self.functions if it]
        return [it for it in self.clauses
                if not any(contract.is_stated(self.crate, it.partition(" of ")[0], owner)
                           for owner in ([it.partition(" of ")[2]] if " of " in it else changed))]

    def text(self, file, texts):
        return texts[file] if file in texts else (self.crate / file).read_text(encoding="utf-8")

    def steps(self, texts):
        """Makes the replacements in `texts`, by file, and gives each with the text before it.

        Raises ValueError if an old text isn't in its file exactly once.
        """
        for pair in self.pairs:
            text = self.text(pair.file, texts)
            if (count := text.count(pair.old)) != 1:
                raise ValueError(f"its old text is in {pair.file} {count} times, and not once")
            yield pair, text
            texts[pair.file] = text.replace(pair.old, pair.new)

    def apply(self, texts):
        """Makes the replacements in `texts`, by file."""
        for _ in self.steps(texts):
            pass

    @functools.cached_property
    def functions(self):
        """The functions around its replacements, with None for one that is outside of functions."""
        return frozenset(source.function_at(pair.file, text, text.find(pair.old))
                         for pair, text in self.steps({}))

    @functools.cached_property
    def bodies(self):
        """The functions whose body a replacement changes, or puts another one in front of."""
        found = set()
        for pair, text in self.steps({}):
            function = source.function_at(pair.file, text, text.find(pair.old))
            changed = text.replace(pair.old, pair.new)
            if function and source.body_of(text, function) != source.body_of(changed, function):
                found.add(function)
        return found

    @property
    def is_inside_functions(self):
        """Whether it changes only bodies and signatures. Other proofs rest on anything else."""
        return None not in self.functions

    def goes_with(self, other):
        """Whether no function that either changes leads by calls to one that the other changes."""
        calls = source.reached(self.crate)
        here, there = ({it.name for it in edit.functions} for edit in (self, other))
        return not any(there & (calls[name] | {name}) for name in here) and \
            not any(here & calls[name] for name in there)


def edits_of(folder):
    """Returns the edits of a crate's folder, by the files that they change, and then by name."""
    found = [Edit(it) for it in (folder / rattle.EDITS).glob("*.edit")]
    return sorted(found, key=lambda it: (it.pairs[0].file, it.path.name))


def fits(edit, chosen):
    """Whether an edit can be tried together with others in one check."""
    if not all(it.is_inside_functions for it in [edit, *chosen]):
        return False
    if not all(edit.goes_with(it) for it in chosen):
        return False
    try:
        together([*chosen, edit])
    except ValueError:
        return False
    return True


def together(edits):
    """Returns the texts of the files that these edits change, by file."""
    texts = {}
    for edit in edits:
        edit.apply(texts)
    return texts


def rounds(edits, most):
    """Puts each edit into the first round with which it goes and that has fewer than `most`."""
    made = []
    for edit in edits:
        chosen = next((it for it in made if len(it) < most and fits(edit, it)), None)
        if chosen is None:
            made.append([edit])
        else:
            chosen.append(edit)
    return made
