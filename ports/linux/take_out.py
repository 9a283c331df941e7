#!/usr/bin/env python3
# SPDX-License-Identifier: GPL-2.0
"""Takes definitions out of C files by their names, and puts #include lines in their place.

    take_out.py RECIPE FOLDER      changes the files of the folder that the recipe names

A recipe has one instruction a line:

    file PATH        the next lines are about this file
    out NAME..       takes each definition out: a function with its EXPORT_SYMBOL lines, a variable,
                     a type, or a call of a macro at the file's level, each with the comment that
                     ends in the line before it
    groups TEXT      takes out each group from the line "#TEXT" to its #endif
    in FILE          writes #include "FILE" where the last definition was

It ends with status 1, and changes nothing, if a name is defined in a file not once, if no group has
the text, or if a file's braces don't match.
"""
import pathlib
import re
import sys

HIDDEN = re.compile(r'//[^\n]*|/\*.*?\*/|"(?:\\.|[^"\\\n])*"|\'(?:\\.|[^\'\\\n])*\''
                    r"|^[ \t]*#(?:\\\n|/\*.*?\*/|[^\n])*", re.S | re.M)
NAME = re.compile(r"[A-Za-z_]\w*")
TYPE = re.compile(r"\b(?:struct|union|enum)\s+([A-Za-z_]\w*)\s*\{")


class Refusal(Exception):
    """Why a recipe can't be followed, as a sentence."""


def blank(text):
    """Returns the text with spaces instead of comments, strings and preprocessor lines."""
    return HIDDEN.sub(lambda it: re.sub(r"[^\n]", " ", it[0]), text)


def items(code):
    """Yields the start and the end of each item of blanked code at the file's level."""
    start, depth, is_body = None, 0, False
    for at, char in enumerate(code):
        if start is None:
            if char.isspace():
                continue
            start = at
        if char == "{" and depth == 0:
            is_body = code[start:at].rstrip().endswith(")")
        depth += (char in "{([") - (char in "})]")
        if depth < 0:
            break
        if depth == 0 and (char == ";" or char == "}" and is_body):
            yield start, at + 1
            start, is_body = None, False
    if depth or start is not None:
        raise Refusal("its braces don't match")


def name_of(item):
    """Returns the name that an item defines, or None for a declaration of a function."""
    head = re.split(r"[={]", item, maxsplit=1)[0]
    call = re.match(r"\s*([A-Za-z_]\w*)\s*\(", head)
    if "(" in head:
        is_defined = call or item.endswith("}")
        return NAME.findall(head.split("(")[0])[-1] if is_defined else None
    if found := TYPE.search(item):
        declared = NAME.findall(item[item.rindex("}"):])
        return declared[0] if declared and "=" not in item else found[1]
    names = [it for it in NAME.findall(head.split("[")[0]) if not it.startswith("____")]
    return names[-1] if names else None


def with_comment(text, start):
    """Returns where the comment that ends in the line before `start` starts, or `start`."""
    found = re.search(r"(?:^[ \t]*//[^\n]*\n)+\Z|^[ \t]*/\*(?:(?!\*/).)*\*/[ \t]*\n\Z",
                      text[:start], re.S | re.M)
    return found.start() if found else start


def end_of(code, end, name):
    """Returns where a definition ends with its EXPORT_SYMBOL lines and the rest of its line."""
    while found := re.compile(rf"\s*EXPORT_SYMBOL\w*\(\s*{name}\s*\);").match(code, end):
        end = found.end()
    line = code.find("\n", end)
    return len(code) if line < 0 else line + 1


def find_definition(text, name):
    """Returns the start and the end of the one definition of a name."""
    code = blank(text)
    found = [it for it in items(code) if name_of(code[it[0]:it[1]]) == name]
    if len(found) != 1:
        raise Refusal(f"it defines {name} {len(found)} times, not once")
    start = code.rfind("\n", 0, found[0][0]) + 1
    end = end_of(code, found[0][1], name)
    if code[start:found[0][0]].strip() or code[found[0][1]:end].partition("\n")[0].strip():
        raise Refusal(f"{name} shares a line with other code")
    return with_comment(text, start), end


def without(text, start, end):
    """Returns the text without a part, and without one of the empty lines around it."""
    is_between = text[:start].endswith("\n\n") and text.startswith("\n", end)
    return text[:start] + text[end + is_between:]


def find_group(text, opening):
    """Returns the start and the end of the first group of lines from #opening to its #endif."""
    depth, start, at = 0, None, 0
    for line in text.splitlines(keepends=True):
        word = re.match(r"\s*#\s*(\w+)", line)
        if start is None and " ".join(line.replace("#", "# ").split()) == f"# {opening}":
            start = at
        if start is not None and word:
            depth += word[1].startswith("if") - (word[1] == "endif")
        at += len(line)
        if start is not None and depth == 0:
            return start, at
    return None


def changed(text, place, verb, rest):
    """Returns a file's text after one instruction, and the place of its last definition."""
    for name in rest.split() if verb == "out" else []:
        place, end = find_definition(text, name)
        text = without(text, place, end)
    if verb == "groups":
        if not find_group(text, rest):
            raise Refusal(f"it has no group #{rest}")
        while found := find_group(text, rest):
            text = without(text, *found)
    if verb == "in":
        text = f'{text[:place]}#include "{rest}"\n{text[place:]}'
    return text, place


def follow(recipe, folder):
    """Returns the new text of each file of a recipe."""
    texts, path, place = {}, None, 0
    for line in recipe.splitlines():
        verb, _, rest = line.partition("#")[0].strip().partition(" ")
        if verb == "file":
            path, place = folder / rest, 0
            texts[path] = path.read_text(encoding="utf-8")
        elif verb:
            try:
                texts[path], place = changed(texts[path], place, verb, rest)
            except Refusal as why:
                raise Refusal(f"{path.relative_to(folder)}: {why}") from why
    return texts


def main():
    if len(sys.argv) != 3:
        sys.exit(__doc__)
    recipe, folder = pathlib.Path(sys.argv[1]), pathlib.Path(sys.argv[2])
    try:
        texts = follow(recipe.read_text(encoding="utf-8"), folder)
    except Refusal as why:
        sys.exit(f"take_out: {why}")
    for path, text in texts.items():
        path.write_text(text, encoding="utf-8")


if __name__ == "__main__":
    main()
