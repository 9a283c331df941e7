"""The lengths of lines and sentences on the pages, as tools/check_docs compares them."""
import re

# the most words of a sentence on these pages
SHORT = {"docs/PROMISES.md": 30, "docs/DECISIONS.md": 30, "docs/NTP.md": 30}
ITEM = re.compile(r"(?:[-*]|\d+\.) +")  # the mark of an item of a list
END = re.compile(r"(?<=[.?!])[*)\"]*\s+(?=[A-Z0-9*\[(\"])")  # between two sentences
WORD = re.compile(r"[^\W_][\w'.,^/-]*")


def texts(page):
    """Yields the number and the text of each paragraph, item of a list, and cell of a table."""
    first, text, last = 0, "", 0
    for number, line in [*page.prose, (0, "")]:
        inside = re.sub(r"^> ?", "", line.strip())
        item = ITEM.match(inside)
        is_apart = not inside or inside.startswith(("#", "|"))
        if text and (item or is_apart or number != last + 1):
            yield first, text
            text = ""
        if inside.startswith("|"):
            yield from ((number, cell) for cell in inside.split(" | "))
        elif not is_apart:
            first = first if text else number
            text = f"{text} {inside[item.end():] if item else inside}".strip()
        last = number


def sentences(page):
    """Yields the number of the line where a sentence's text starts, and the sentence's words."""
    for number, text in texts(page):
        plain = re.sub(r"`[^`]*`", "Code", re.sub(r"\]\([^)]*\)", "]", text))  # code is one word
        for sentence in END.split(plain):
            yield number, WORD.findall(sentence)


def faults(page):
    """Yields each line of prose, page and sentence that is too long."""
    for number, line in page.prose:
        if len(line) > 100 and not line.lstrip().startswith("|"):
            yield f"{page.name}:{number}: {len(line)} columns, more than 100"
    if page.name == "README.md" and len(page.text.splitlines()) > 150:
        yield "README.md: more than 150 lines"
    most = SHORT.get(page.name)
    for number, words in sentences(page) if most else ():
        if len(words) > most:
            yield (f"{page.name}:{number}: a sentence of {len(words)} words, more than {most}: "
                   f"{' '.join(words[:6])} ..")
