"""The pages of this repository, as tools/check_docs reads them."""
import pathlib
import re

ROOT = pathlib.Path(__file__).resolve().parent.parent
NUMBERS = ("zero one two three four five six seven eight nine ten eleven twelve thirteen fourteen "
           "fifteen sixteen seventeen eighteen nineteen twenty").split()


class Page:
    """A page, with the parts that its checks read."""

    def __init__(self, path):
        self.path = path
        self.name = str(path.relative_to(ROOT))
        self.text = path.read_text(encoding="utf-8")
        self.blocks = []  # the fenced and indented blocks: a language and the numbered lines
        self.prose = []  # the numbered lines outside of blocks
        self.read()

    def read(self):
        block, was_blank = None, True
        for number, line in enumerate(self.text.split("\n"), 1):
            if block is not None and block[0] is not None:
                if line.startswith("```"):
                    block = None
                else:
                    block[1].append((number, line))
            elif line.startswith("```"):
                block = (line[3:].strip(), [])
                self.blocks.append(block)
            elif line.startswith("    ") and (was_blank or block is not None):
                if block is None:
                    block = (None, [])
                    self.blocks.append(block)
                block[1].append((number, line[4:]))
            else:
                if line.strip():
                    block = None
                self.prose.append((number, line))
            was_blank = not line.strip()

    def anchors(self):
        """The names by which links lead to the headings."""
        titles = [line.lstrip("# ") for _, line in self.prose if re.match(r"#+ ", line)]
        return {re.sub(r"[^\w\- ]", "", title.lower()).replace(" ", "-") for title in titles}


def number_of(word):
    """Returns the number that a word or digits state, or None."""
    digits = word.replace(",", "")
    if word.lower() in NUMBERS:
        return NUMBERS.index(word.lower())
    return int(digits) if digits.isdigit() else None


def pages():
    """Every page of the repository."""
    names = ["*.md", "docs/*.md", "bench/*.md", "run/*.md", "tests/*.md", "tools/*.md",
             "crates/*/README.md", "crates/*/CALLING.md", "release/*.md",
             "bindings/*/README.md", "examples/**/README.md"]
    return [Page(path) for name in names for path in sorted(ROOT.glob(name))]
