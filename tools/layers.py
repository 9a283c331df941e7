"""The picture of the product's crates: each in a layer above all crates that it uses."""
import html
import itertools

import rattle

WIDTH, HEIGHT, GAP, RISE, EDGE = 138, 30, 16, 78, 14  # of a box, between boxes and layers
KINDS = {"library": "#dbe9f6", "program": "#d9efd3", "static library": "#fbe3c4"}
SWEEPS = 8  # times that the layers are sorted, upwards and downwards


def kind_of(crate):
    if crate.is_program:
        return "program"
    return "static library" if crate.kind else "library"


def drawn_uses(crates):
    """Returns the uses of each crate by its name, without those that it has through another."""
    names = {it.name for it in crates}
    through = {it.name: {low.name for low in it.below} for it in crates}
    uses = {it.name: [low for low in it.uses if low in names] for it in crates}
    return {name: [low for low in lows if not any(low in through[it] for it in lows)]
            for name, lows in uses.items()}


def layer_of(uses):
    """Returns the layer of each name: 0, or one more than the highest that it uses."""
    found = {}
    for name, lows in uses.items():  # the lowest come first
        found[name] = 1 + max((found[low] for low in lows), default=-1)
    return found


def paths(uses, layers):
    """Returns the line of each use: the crate, a bend in each layer between, the crate below."""
    return [[name, *((name, low, it) for it in range(layers[name] - 1, layers[low], -1)), low]
            for name, lows in uses.items() for low in lows]


def rows_of(layers, lines):
    """Returns the points of each layer in an order with few crossings of lines."""
    placed = dict(layers) | {bend: bend[2] for line in lines for bend in line[1:-1]}
    rows = [[it for it in placed if placed[it] == number]
            for number in range(max(layers.values()) + 1)]
    pairs = [pair for line in lines for pair in itertools.pairwise(line)]
    for sweep in range(SWEEPS):
        for row in rows[1:] if sweep % 2 == 0 else rows[-2::-1]:
            column = {it: place / len(row) for row in rows for place, it in enumerate(row)}
            near = {it: [low if it == high else high for high, low in pairs if it in (high, low)
                         and (it == high) == (sweep % 2 == 0)] for it in row}
            row.sort(key=lambda it: sum(column[end] for end in near[it]) / len(near[it])
                     if near[it] else column[it])
    return rows


def places(rows):
    """Returns the middle of each point, with the layers centred over each other."""
    def breadth(it):
        return WIDTH if isinstance(it, str) else EDGE
    widths = [sum(map(breadth, row)) + GAP * (len(row) - 1) for row in rows]
    found = {}
    for number, row in enumerate(rows):
        left = GAP + (max(widths) - widths[number]) / 2
        for it in row:
            found[it] = (left + breadth(it) / 2, GAP + HEIGHT / 2 + RISE * (len(rows) - 1 - number))
            left += breadth(it) + GAP
    return found, max(widths) + 2 * GAP, RISE * (len(rows) - 1) + HEIGHT + 2 * GAP


def line_of(line, at):
    """Returns the text of a use: a line from the crate's lower edge to the other's upper edge."""
    middles = [at[it] for it in line]
    ends = [(x, y + side * HEIGHT / 2) for x, y in middles for side in (-1, 1)]
    text = " ".join(f"{x:g},{y:g}" for x, y in ends[1:-1])  # between the boxes
    return f'<polyline points="{text}"/>'


def box_of(crate, at):
    x, y = at[crate.name]
    return (f'<rect x="{x - WIDTH / 2:g}" y="{y - HEIGHT / 2:g}" width="{WIDTH}" height="{HEIGHT}" '
            f'rx="4" fill="{KINDS[kind_of(crate)]}"/>'
            f'<text x="{x:g}" y="{y + 4:g}">{html.escape(crate.name)}</text>')


def picture(crates):
    """Returns the SVG of crates, which come lowest first. Its white ground suits dark pages too."""
    uses = drawn_uses(crates)
    lines = paths(uses, layer_of(uses))
    at, width, height = places(rows_of(layer_of(uses), lines))
    return "\n".join([
        f'<svg xmlns="http://www.w3.org/2000/svg" viewBox="0 0 {width:g} {height:g}" '
        f'width="{width:g}" height="{height:g}" role="img">',
        "<title>The product's crates: each uses the crates that lines lead down to</title>",
        f'<rect width="{width:g}" height="{height:g}" rx="6" fill="#ffffff"/>',
        '<g fill="none" stroke="#7a7a7a">', *(line_of(line, at) for line in lines), "</g>",
        '<g font-family="DejaVu Sans, Verdana, sans-serif" font-size="12" text-anchor="middle">',
        *(box_of(it, at) for it in crates), "</g>", "</svg>", ""])


def product():
    return picture(rattle.product())
