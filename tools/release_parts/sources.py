"""The files that the texts are made from: their sums, and the id of their tree in git."""
import hashlib
import os
import re

import rattle

from . import manifest

PART = "sources"  # of the MANIFEST
LINE = re.compile(r"[0-9a-f]{64}  ((?:crates|tools)/\S+)")


def found(crates, tools):
    """Returns the names of the files of these crates and tools, below the top folder."""
    top = rattle.ROOT
    files = [it for crate in crates for part in rattle.PARTS
             for it in (crate.folder / part).rglob("*") if it.is_file()]
    files += [it for name in tools for it in (top / "tools").glob(name)]
    return {it.relative_to(top).as_posix() for it in files}


def sums(names):
    """Returns a line with the SHA-256 of each file, as sha256sum prints it."""
    return [manifest.line_of(rattle.ROOT / name, name) for name in sorted(names)]


def total(names):
    """Returns a line with the sum of all sums."""
    lines = sorted(sums(names))
    whole = manifest.sum_of("".join(f"{line}\n" for line in lines).encode())
    return f"sources: {whole} of {len(lines)} files"


def object_id(kind, content):
    """Returns the name of an object of git."""
    return hashlib.sha1(b"%s %d\0%s" % (kind, len(content), content), usedforsecurity=False)


def tree(names, folder=""):
    """Returns the id of the tree in git that has these files only: `git write-tree` prints it."""
    entries, below = {}, {}
    for name in names:
        first, _, rest = name.removeprefix(folder).partition("/")
        if rest:
            below.setdefault(first, []).append(name)
            continue
        path = rattle.ROOT / name
        mode = b"100755" if os.access(path, os.X_OK) else b"100644"
        entries[first] = mode, object_id(b"blob", path.read_bytes()).digest()
    for first, rest in below.items():
        entries[f"{first}/"] = b"40000", bytes.fromhex(tree(rest, f"{folder}{first}/"))
    content = b"".join(b"%s %s\0%s" % (mode, name.rstrip("/").encode(), digest)
                       for name, (mode, digest) in sorted(entries.items()))
    return object_id(b"tree", content).hexdigest()


def lines(names):
    """Returns the lines of the part of the MANIFEST."""
    return [f"tree: {tree(names)} of {len(names)} files", *sums(names)]


def differences(given, names):
    """Returns the names of the files that aren't those of the part's lines, in order."""
    present = lines(names)
    changed = {match[1] for line in set(given).symmetric_difference(present)
               if (match := LINE.fullmatch(line))}
    return sorted(changed) or ([] if given == present else [f"[{PART}]"])
