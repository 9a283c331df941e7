"""The functions of a Rattle source file, by the names that `rattle check` prints for them."""
import dataclasses
import functools
import re

FUNCTION = re.compile(r'( *)(?:pub(?:\([^)]*\))? )?(?:const |unsafe |extern "C" )*fn (\w+)')
IMPL = re.compile(r"(?:unsafe )?impl\b(.*)")
PATH = re.compile(r"\w+(?:::\w+)*")
# a call, or a function that is passed by its path
CALL = re.compile(r"\b(\w+)(?=\(|::<)|(?<=::)(\w+)")
# what is in front of the brace of a clause
CLAUSE = re.compile(r"\b(?:requires|ensures)(?: \w+)? \Z")


@dataclasses.dataclass(frozen=True)
class Function:
    """A function with its lines, counted from 0, and the end of its name in a check's output."""

    name: str
    first: int
    last: int
    path: str
    is_public: bool

    def is_named(self, printed):
        """Whether a check's name of a function, `crate::module::Type::name`, means this one."""
        return f"::{printed}".endswith(f"::{self.path}")


def without_parameters(text):
    """Removes what is in angle brackets."""
    while (shorter := re.sub(r"<[^<>]*>", "", text)) != text:
        text = shorter
    return text


def words_of(path):
    """Returns the words of a type's path as a check prints them: `IoError` for `io::Error`."""
    return "".join(it[0].upper() + it[1:] for it in path.split("::"))


def type_of(block):
    """Returns the name of an impl's type, followed by that of its trait, and of the trait's type.

    Returns "" if the trait is of more than a type, or one of the types is a parameter of the impl,
    since a check prints more then.
    """
    words = re.findall(r"[\w:]+", without_parameters(block).split(" where ")[0])
    names = [it.rpartition("::")[2] for it in words]
    if "for" not in names:
        return names[0] if names else ""
    of, for_type = names[names.index("for") - 1], names[names.index("for") + 1]
    given = re.search(rf"\b{of}<(.*)> for ", block)
    types = [for_type, given[1]] if given else [for_type]
    if any(not PATH.fullmatch(it) or re.match(rf"<[^>]*\b{it}\b", block) for it in types):
        return ""
    return for_type + of + "".join(map(words_of, types[1:]))


def end_of(lines, first):
    """Returns the number of the line on which the item that begins on line `first` ends."""
    indent = re.match(" *", lines[first])[0]
    for number in range(first, len(lines)):
        line = lines[number].rstrip()
        if line in (f"{indent}}}", f"{indent}{{}}") or number == first and line.endswith(("}", ";")):
            return number
    return first


@functools.cache
def functions(file, text):
    """Returns the functions of a file. A method's name has its type in place of its module."""
    module = re.sub(r"^src/((lib|main)\.rt$)?|\.rt$", "", file).replace("/", "::")
    lines, found, block, last = text.split("\n"), [], "", -1
    for number, line in enumerate(lines):
        if number > last:
            block = ""
        if head := IMPL.match(line):
            block, last = type_of(head[1]), end_of(lines, number)
        elif head := FUNCTION.match(line):
            above = block if number <= last else module
            path = "::".join(it for it in (above, head[2]) if it)
            is_public = line.lstrip().startswith("pub ")
            found.append(Function(head[2], number, end_of(lines, number), path, is_public))
    return found


def body_of(text, function):
    """Returns the text of a function after its contract."""
    item = "\n".join(text.split("\n")[function.first:function.last + 1])
    depth = 0
    for brace in re.finditer("[{}]", item):
        if depth == 0 and not CLAUSE.search(item, 0, brace.start()):
            return item[brace.start():]
        depth += 1 if brace[0] == "{" else -1
    return ""


def function_at(file, text, place):
    """Returns the innermost function around a place of a text, or None."""
    line = text.count("\n", 0, place)
    inside = [it for it in functions(file, text) if it.first <= line <= it.last]
    return inside[-1] if inside else None


@functools.cache
def reached(crate):
    """Returns, for each name of a crate's functions, the names that calls lead to from it.

    Functions of one name count as one, so these are at least the functions that are reached.
    """
    calls = {}
    for path in sorted((crate / "src").rglob("*.rt")):
        text = path.read_text(encoding="utf-8")
        lines = text.split("\n")
        for it in functions(str(path.relative_to(crate)), text):
            body = "\n".join(lines[it.first + 1:it.last])
            calls.setdefault(it.name, set()).update("".join(them) for them in CALL.findall(body))
    found = {name: {it for it in called if it in calls} for name, called in calls.items()}
    while any(more := [name for name, names in found.items()
                       if not all(found[it] <= names for it in names)]):
        for name in more:
            found[name] = found[name].union(*(found[it] for it in found[name]))
    return found
