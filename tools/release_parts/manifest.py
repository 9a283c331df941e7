"""The file release/MANIFEST: what each part's texts are made from, and with what.

A part is a name in brackets, and lines up to the next one. A line with a SHA-256 and the path of a
text below release/ is one that sha256sum -c takes.
"""
import hashlib
import re

NAME = "MANIFEST"
HEAD = """\
# What the texts of this folder are made from, and with what. tools/release writes this file, and
# `tools/release --verify` makes everything again and compares it. README.md describes the lines.
"""
TEXT = re.compile(r"[0-9a-f]{64}  ((?:x86_64|aarch64|wasm64|wasm32)/\S+)")


def sum_of(content):
    return hashlib.sha256(content).hexdigest()


def line_of(path, name):
    """Returns the line for a file under this name."""
    return f"{sum_of(path.read_bytes())}  {name}"


def read(folder):
    """Returns the lines of each part, by its name."""
    parts, lines = {}, None
    for line in (folder / NAME).read_text(encoding="utf-8").splitlines():
        if found := re.fullmatch(r"\[(\w+)\]", line):
            lines = parts.setdefault(found[1], [])
        elif line and lines is not None:
            lines.append(line)
    return parts


def write(folder, parts):
    text = "".join(f"\n[{name}]\n" + "".join(f"{line}\n" for line in parts[name])
                   for name in sorted(parts))
    (folder / NAME).write_text(HEAD + text, encoding="utf-8")


def files(parts):
    """Returns the paths of the parts' texts."""
    return [found[1] for lines in parts.values() for line in lines
            if (found := TEXT.fullmatch(line))]
