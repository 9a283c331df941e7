#!/usr/bin/env python3
"""Prints the number by which CI chooses its random scripts: a hash of the product's sources.

The same files give the same number, in each commit, in a clone and outside a repository. So a test
that passed passes again until a file that it tests has changed, and a failure can be repeated. The
wrong edits of a crate are chosen by the number of its own files.
"""
import hashlib
import pathlib
import sys

sys.dont_write_bytecode = True
import rattle  # noqa: E402


def number_of(folders):
    """Returns a number of 32 bits that depends on the names and the bytes of all files in folders.

    The folders are paths below the top of the repository.
    """
    found = hashlib.sha256()
    files = [it for folder in folders for it in (rattle.ROOT / folder).rglob("*") if it.is_file()]
    for name, path in sorted((it.relative_to(rattle.ROOT).as_posix(), it) for it in files):
        content = path.read_bytes()
        found.update(f"{name}\0{len(content)}\0".encode() + content)
    return int.from_bytes(found.digest()[:4], "big")


def of_crate(crate):
    """Returns the number of a crate's sources, definitions, proofs and wrong edits."""
    folder = crate.folder.relative_to(rattle.ROOT)
    return number_of(folder / part for part in (*rattle.PARTS, rattle.EDITS))


def of_product():
    """Returns the number of the sources of the product's crates."""
    return number_of(pathlib.Path("crates", it.name, "src") for it in rattle.product())


if __name__ == "__main__":
    print(of_product())
