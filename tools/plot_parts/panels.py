"""Draws the panels of a picture: curves of clocks over what the counter counted, and the commands."""
import matplotlib

matplotlib.use("svg")
import matplotlib.pyplot as plt  # noqa: E402
from matplotlib.lines import Line2D  # noqa: E402

from .records import ACCEPTED, Fault  # noqa: E402

CLOCKS = ("realtime", "monotonic", "boottime", "tai", "realtime_coarse", "monotonic_coarse",
          "monotonic_raw")
COLOURS = {"realtime": "#e69f00", "boottime": "#009e73", "monotonic": "#0072b2", "tai": "#cc79a7",
           "monotonic_raw": "#777777", "count": "#999999", "reading": "#333333"}
# equal clocks are drawn over each other, the widest at the bottom
WIDTHS = {"tai": 8, "realtime": 5, "boottime": 3.2}
LABELS = {"realtime": "REALTIME minus\nREALTIME at the opening",
          "tai": "TAI minus\nREALTIME at the opening",
          "count": "all cycles at the\ncounter's own rate", "reading": "reading of the counter"}
REFUSED = "#d00000"
MARKS = {"ok": {"marker": "o", "color": "#000000", "markersize": 4, "zorder": 8},
         "no": {"marker": "x", "color": REFUSED, "markersize": 8, "markeredgewidth": 2,
                "zorder": 9}}
MARK_LABELS = {"ok": "accepted command", "no": "refused command"}
# text stays text, and the same report gives the same bytes
MOST = 100  # commands; of more, updates have no line
STYLE = {"svg.fonttype": "none", "svg.hashsalt": "tools/plot", "font.family": "sans-serif",
         "font.sans-serif": ["DejaVu Sans", "Verdana"]}
UNITS = [(1, "seconds"), (1e-3, "milliseconds"), (1e-6, "microseconds"), (1e-9, "nanoseconds")]
matplotlib.rcParams.update(STYLE)


def clocks_of(panels):
    """Returns the clocks that the curves of panels need."""
    names = {part for panel in panels for curve in panel.split(",") for part in curve.split("-")}
    if unknown := sorted(names - {*CLOCKS, "count", "reading"}):
        raise Fault(f"there is no curve {unknown[0]!r}")
    return [clock for clock in CLOCKS if clock in names]


class Picture:
    """What all panels of a script draw from."""

    def __init__(self, opening, rows):
        self.opening, self.rows = opening, rows
        # (cycles of two counters aren't the same)
        self.is_changed = any(it.word == "counter" and it.answer[0] in ACCEPTED for it in rows)

    def x(self, row):
        return row.seconds if self.is_changed else row.cycles

    def clock_points(self, clock):
        """Returns a clock's times in s, by the place of the read and the commands before it."""
        start = self.opening.real_sec if clock.startswith("realtime") or clock == "tai" else 0
        return {(self.x(row), row.commands): seconds(row.answer[2]) - start for row in self.rows
                if row.word == "get" and row.answer[:2] == ["at", clock]}

    def curve_points(self, curve):
        if curve == "reading":
            return self.sawtooth()
        if curve == "count":
            return [(self.x(row), row.seconds) for row in self.rows]
        clock, _, other = curve.partition("-")
        points = self.clock_points(clock)
        if other:
            others = self.clock_points(other)
            points = {at: value - others[at] for at, value in points.items() if at in others}
        if not points:
            raise Fault(f"the report has no {curve}")
        return [(x, value) for (x, _), value in points.items()]

    def sawtooth(self):
        """Returns the readings of the counter, which falls from its greatest reading to 0."""
        if self.is_changed:
            raise Fault("the script changes its counter, and the curve reading is that of one")
        points = []
        for row in self.rows:
            if points and row.cycles > points[-1][0] and row.reading < points[-1][1]:
                wrap = row.cycles - row.reading
                points += [(wrap - 1, 2**self.opening.bits - 1), (wrap, 0)]
            points.append((row.cycles, row.reading))
        return points

    def commands(self):
        """Returns the rows of commands. A request without modes is a read."""
        return [row for row in self.rows
                if row.word != "get" and not (row.word == "adjtimex" and row.fields[0] == "0")]


def seconds(text):
    """Returns a time of a report in seconds. The rounding error of a float is far below a pixel."""
    whole, nanos = text.split(".")
    return int(whole) + int(nanos) / 1e9


def unit_of(curves):
    most = max(abs(value) for points in curves.values() for _, value in points)
    return next((unit for unit in UNITS if most >= 1.5 * unit[0]), UNITS[-1])


def draw_panel(axes, names, picture):
    """Draws the curves of a panel, and returns the points of the first one in the panel's unit."""
    curves = {name: picture.curve_points(name) for name in names}
    size, unit = (1, "reading") if names == ["reading"] else unit_of(curves)
    for name, points in curves.items():
        width = WIDTHS.get(name, 1.6)
        axes.plot([x for x, _ in points], [y / size for _, y in points], linewidth=width,
                  label=label_of_curve(name), zorder=5 - width / 3,
                  color=COLOURS.get(name.partition("-")[0]), solid_capstyle="butt",
                  linestyle="--" if name == "count" else "-")
    bits = picture.opening.bits
    if names == ["reading"] and bits <= 16:
        axes.set_yticks([0, 2 ** (bits - 1) - 1, 2**bits - 1])
    axes.set_ylabel(unit)
    axes.grid(True, color="#e6e6e6")
    axes.margins(x=0.01)
    return [(x, y / size) for x, y in curves[names[0]]]


def label_of_curve(name):
    return LABELS.get(name) or name.upper().replace("-", " minus\n")


def mark_answers(axes, curve, picture, is_last):
    """Draws the mark of each command, whose refusal the last panel names, and the legend."""
    seen = set()
    for row in picture.commands():
        at = picture.x(row)
        before = [point for point in curve if point[0] <= at]
        if not before:
            continue
        (x, y), answer = max(before, key=lambda point: point[0]), row.answer[0]
        answer = "ok" if answer in ACCEPTED else answer
        axes.plot([x if answer == "ok" else at], [y], **MARKS[answer])
        seen.add(answer)
        if answer == "no" and is_last:
            axes.annotate(f"{row.word}: {','.join(row.answer)}", (at, y), (8, -12),
                          textcoords="offset points", fontsize=9, color=REFUSED)
    marks = [Line2D([], [], linestyle="", label=MARK_LABELS[answer], **MARKS[answer])
             for answer in MARKS if answer in seen]
    axes.legend(handles=axes.get_legend_handles_labels()[0] + marks, loc="center left",
                bbox_to_anchor=(1.01, 0.5), edgecolor="none", fontsize=9)


def label_of(row):
    """Returns a command as a short text, empty for an update."""
    if row.word == "freq":
        return f"freq {int(row.fields[0]) / 65536:+g} ppm"
    if row.word == "tai":
        return f"tai {int(row.fields[0])} s"
    if row.word in ("step", "resume"):
        sign = "+" if row.word == "step" else ""
        return f"{row.word} {int(row.fields[0]) + int(row.fields[1]) / 1e9:{sign}g} s"
    if row.word == "adjtimex":
        return f"adjtimex {int(row.fields[0]):#x}"
    if row.word == "counter":
        return f"counter of {row.fields[0]} bits"
    return "" if row.word == "update" else " ".join([row.word, *row.fields])


def mark_commands(panels, picture):
    """Draws a line through all panels at each accepted command, with its text at the top. The time
    from a suspend to its resume is grey."""
    accepted = [row for row in picture.commands() if row.answer[0] in ACCEPTED]
    if len(accepted) > MOST:
        accepted = [row for row in accepted if row.word != "update"]
    asleep = None
    for row in accepted:
        at = picture.x(row)
        for axes in panels:
            axes.axvline(at, color="#888888", linewidth=0.8, linestyle=":", zorder=1)
            if row.word == "resume" and asleep is not None:
                axes.axvspan(asleep, at, color="#eeeeee", zorder=0)
        asleep = at if row.word == "suspend" else None
        panels[0].annotate(label_of(row).replace("-", "−"), (at, 1), (0, 4), ha="center",
                           xycoords=("data", "axes fraction"), textcoords="offset points",
                           fontsize=9)


def draw(opening, rows, path, wanted):
    """Draws a picture with these panels into a file."""
    picture = Picture(opening, rows)
    figure, grid = plt.subplots(len(wanted), 1, sharex=True, figsize=(10, 2.7 * len(wanted)),
                                squeeze=False, layout="constrained")
    panels = [line[0] for line in grid]
    for axes, panel in zip(panels, wanted):
        curve = draw_panel(axes, panel.split(","), picture)
        mark_answers(axes, curve, picture, axes is panels[-1])
    mark_commands(panels, picture)
    panels[-1].set_xlabel("cycles counted")
    if picture.is_changed:
        panels[-1].set_xlabel("seconds at the rates of the counters")
    elif rows[-1].cycles >= 5e6:
        panels[-1].xaxis.set_major_formatter(lambda x, _: f"{x / 1e6:g}")
        panels[-1].set_xlabel("cycles counted, in millions")
    figure.savefig(path, metadata={"Date": None, "Creator": None})
