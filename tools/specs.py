"""The definitions in specs/ of the crates, by the comments at their heads."""
import collections
import re

from pages import ROOT

SENTENCE = re.compile(r"(.+?)(?:\.(?= [A-Z])|\.?$)")
CITED = re.compile(r"\bRattle\.(\w+)\.specs\.([\w.]+?)(?:\.\{| as )")


def files(crate="*"):
    """Returns the definitions of a crate, or of all: every file but the lists Lib.antt."""
    return [path for path in sorted(ROOT.glob(f"crates/{crate}/specs/**/*.antt"))
            if path.name != "Lib.antt"]


def name_of(path):
    """Returns the crate of a definition, and its name there as sources cite it."""
    inside = path.relative_to(ROOT / "crates")
    return inside.parts[0], ".".join(inside.with_suffix("").parts[2:])


def head_of(text):
    """Returns the first sentence of the comment with which a file begins, or ""."""
    comment = re.match(r"(?:--.*\n)*", text)[0]
    words = " ".join(line.removeprefix("--").strip() for line in comment.splitlines())
    return SENTENCE.match(words)[1] if words else ""


def citations(folder, ending):
    """Returns the files of a folder of the crates that cite each definition, by crate and name."""
    found = collections.defaultdict(list)
    for path in sorted(ROOT.glob(f"crates/*/{folder}/**/*{ending}")):
        for cited in dict.fromkeys(CITED.findall(path.read_text(encoding="utf-8"))):
            found[cited].append(path.relative_to(ROOT / "crates"))
    return found


def users():
    """Returns the files that cite each definition, nearest first: sources, then definitions."""
    return [citations("src", ".rt"), citations("specs", ".antt")]


def users_of(path, cited):
    """Returns a crate's own sources that cite a definition, or else others, or definitions."""
    crate, name = name_of(path)
    found = next((it[crate, name] for it in cited if it[crate, name]), [])
    own = [str(it.relative_to(crate)) for it in found if it.parts[0] == crate]
    return own or [str(it) for it in found]


def faults():
    """Yields each definition that doesn't say what it defines, or that no Lib.antt lists."""
    for path in files():
        inside = path.relative_to(ROOT)
        if not head_of(path.read_text(encoding="utf-8")):
            yield f"{inside}: no comment at the head says what it defines"
        lists = (path.parent / "Lib.antt").read_text(encoding="utf-8")
        if f"pub mod {path.stem}\n" not in lists:
            yield f"{inside}: {path.parent.name}/Lib.antt doesn't list it"
