"""The public functions of the product, and those whose body no wrong edit changes."""
import rattle
from edits import edit as wrong, source

# each function of which no wrong body exists, with the reason
LIST = rattle.ROOT / "tools" / "edits" / "no_wrong_body.txt"


def public_functions(crate):
    """Returns the names of a crate's public functions, each with the path of its file."""
    return {f"{crate.name}::{it.path}": path.relative_to(rattle.ROOT)
            for path in sorted((crate.folder / "src").rglob("*.rt"))
            for it in source.functions(str(path.relative_to(crate.folder)),
                                       path.read_text(encoding="utf-8"))
            if it.is_public}


def edited_functions(crate):
    """Returns the names of a crate's functions whose body an edit changes.

    An edit that no longer applies changes nothing.
    """
    found = set()
    for edit in wrong.edits_of(crate.folder):
        try:
            found |= {f"{crate.name}::{it.path}" for it in edit.bodies}
        except (ValueError, OSError):
            pass
    return found


def listed_functions(crates):
    """Returns the functions of the list, each with its reason, but those of the product's other
    crates."""
    others = {it.name for it in rattle.product()} - {it.name for it in crates}
    lines = LIST.read_text(encoding="utf-8").splitlines()
    parts = (it.partition(" ") for it in lines if not it.startswith("#"))
    return {name.removesuffix(":"): why for name, _, why in parts
            if name.partition("::")[0] not in others}


def gaps(crates):
    """Yields the public functions of these crates without an edit of their body or a reason in the
    list, and the entries of the list that aren't needed or give no reason."""
    public = {name: path for it in crates for name, path in public_functions(it).items()}
    edited = {name for it in crates for name in edited_functions(it)}
    listed = listed_functions(crates)
    yield from (f"{path}: no edit changes the body of {name}" for name, path in public.items()
                if name not in edited and name not in listed)
    for name, why in listed.items():
        label = f"{LIST.relative_to(rattle.ROOT)}: {name}"
        if name not in public:
            yield f"{label}: it isn't a public function of the product"
        elif name in edited:
            yield f"{label}: an edit changes its body"
        elif not why:
            yield f"{label}: there is no reason"
