#!/usr/bin/env python3
# SPDX-License-Identifier: MIT OR Apache-2.0
"""Makes the shared object of the Python package from the C library and the headers.

    build_library.py [FILE]      FILE is src/tkcore/_tkcore.so if it isn't given

The C library is the one in the folder TKCORE_DIR; or in the clone's dist/; or the assembler text in
the source package's c/ or the clone's release/; or the one that pkg-config finds. It needs a C
compiler, $CC or cc. It ends with status 1 if one of them is missing.
"""
import os
import shlex
import subprocess
import sys
from pathlib import Path

HERE = Path(__file__).resolve().parent
CLONE = HERE.parents[1]
VERSION = "0.3"  # of the C library, as far as its interface stays the same
MACHINES = ("x86_64", "aarch64")


class Missing(Exception):
    """What the package can't be made without."""


def sources():
    """Yields each header and text of the C library: its path in a source package, and the file."""
    for name in ("include/tkcore.h", "include/tkcore_page.h",
                 *(f"{machine}/tkcore.s" for machine in MACHINES)):
        packed = HERE / "c" / name
        yield name, packed if packed.exists() else (
            CLONE / (name if name.startswith("include") else f"release/{name}"))


def from_text(machine):
    """Returns the folder of the headers and the text for a machine, or None."""
    found = dict(sources())
    text = found.get(f"{machine}/tkcore.s")
    return (found["include/tkcore.h"].parent, text) if text and text.exists() else None


def from_pkg_config():
    """Returns the folder of the headers and the archive by pkg-config, or None."""
    query = ["pkg-config", "--variable"]
    try:
        version = subprocess.run(["pkg-config", "--modversion", "tkcore"], capture_output=True,
                                 text=True, check=True).stdout
        folders = [subprocess.run([query[0], f"{query[1]}={name}", "tkcore"], capture_output=True,
                                  text=True, check=True).stdout.strip()
                   for name in ("includedir", "libdir")]
    except (OSError, subprocess.CalledProcessError):
        return None
    if not version.startswith(VERSION + "."):
        raise Missing(f"pkg-config's tkcore is of version {version.strip()} instead of {VERSION}")
    return Path(folders[0]), Path(folders[1], "libtkcore.a")


def library(machine):
    """Returns the folder of the C library's headers, and its archive or its text."""
    given = os.environ.get("TKCORE_DIR")
    folder = Path(given) if given else CLONE / "dist"
    archive = folder / "lib" / "libtkcore.a"
    if archive.exists():
        return folder / "include", archive
    if given:
        raise Missing(f"TKCORE_DIR has no {archive}")
    found = from_text(machine) or from_pkg_config()
    if found is None:
        raise Missing(f"there is no text of the C library for {machine}, and pkg-config knows none")
    return found


def require_assembler(compiler):
    words = [*compiler, "-x", "assembler", "-c", "-", "-o", os.devnull]
    if subprocess.run(words, input=b"", capture_output=True, check=False).returncode:
        raise Missing(f"{compiler[0]} finds no assembler: install binutils")


def build(target):
    """Makes the shared object, and returns the name of the processor that it is for."""
    compiler = shlex.split(os.environ.get("CC", "cc"))
    try:
        machine = subprocess.run([*compiler, "-dumpmachine"], capture_output=True, text=True,
                                 check=True).stdout.partition("-")[0]
    except (OSError, subprocess.CalledProcessError):
        raise Missing(f"there is no C compiler {compiler[0]}") from None
    include, code = library(machine)
    require_assembler(compiler)
    Path(target).parent.mkdir(parents=True, exist_ok=True)
    command = [*compiler, "-std=c11", "-O2", "-fPIC", "-fno-stack-protector", "-shared",
               "-nostdlib", f"-I{include}", str(HERE / "src" / "tkcore" / "_page.c"),
               "-Wl,-z,defs", "-Wl,--whole-archive", str(code), "-Wl,--no-whole-archive",
               "-o", str(target)]
    if subprocess.run(command, check=False).returncode:
        raise Missing(f"{compiler[0]} doesn't make the shared object of {code}")
    return machine


def main():
    target = sys.argv[1] if len(sys.argv) > 1 else HERE / "src" / "tkcore" / "_tkcore.so"
    try:
        build(target)
    except Missing as missing:
        print(f"build_library: {missing}", file=sys.stderr)
        return 1
    return 0


if __name__ == "__main__":
    sys.exit(main())
