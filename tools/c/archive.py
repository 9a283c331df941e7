#!/usr/bin/env python3
"""Proves and compiles a static library over libraries that are kept, for tools/build_c.

    tools/c/archive.py LIBRARIES llvm|rattle TARGET ARCHIVE [CRATE]

The proved libraries below the crate (tk_c) are in the folder LIBRARIES, or are built there. What is
proved of the crate stays there too, so that each target and backend after the first takes less. It
ends with status 1 if a crate isn't proved.
"""
import pathlib
import sys

sys.dont_write_bytecode = True
sys.path.append(str(pathlib.Path(__file__).resolve().parent.parent))
import rattle  # noqa: E402


def main(libraries, backend, target, archive, name="tk_c"):
    crate, libraries = rattle.crates()[name], pathlib.Path(libraries).resolve()
    libraries.mkdir(parents=True, exist_ok=True)
    if not rattle.build_all(crate.below, libraries):
        return 1
    status, said = crate.archive_over(libraries, backend, target, pathlib.Path(archive).resolve())
    print(said)
    return 1 if status else 0


if __name__ == "__main__":
    sys.exit(main(*sys.argv[1:]))
