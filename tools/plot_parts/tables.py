"""Draws the offsets that chronyd found, and the columns of a table."""
import csv
from datetime import datetime

from .panels import COLOURS, plt
from .records import Fault

# the curves of a table, in their order; equal ones are drawn over each other
TABLE_COLOURS = ["#e69f00", "#0072b2", "#009e73"]
TABLE_WIDTHS = [4.4, 3, 1.6]
STEP = 0.1  # s; a greater offset was stepped
FREQUENCY_SHOWN = 1  # ppm, above and below the last frequency


def read_tracking(log):
    """Returns the minutes since the first measurement, the offsets in s, the frequencies, and the
    bounds of their errors, both in ppm."""
    try:
        with open(log, encoding="utf-8") as file:
            lines = [line.split() for line in file if line[0].isdigit()]
        rows = [(datetime.fromisoformat(f"{line[0]}T{line[1]}"), float(line[6]), float(line[4]),
                 float(line[5])) for line in lines if line[3] != "0"]
        start = rows[0][0]
    except (OSError, ValueError, IndexError) as error:
        raise Fault(f"{log} is no log of tracking: {error}") from None
    return list(zip(*(((time - start).total_seconds() / 60, *rest) for time, *rest in rows)))


def draw_tracking(log, picture):
    minutes, offsets, frequencies, skews = read_tracking(log)
    steps = [at for at, offset in enumerate(offsets) if abs(offset) > STEP]
    figure, (top, bottom) = plt.subplots(2, 1, sharex=True, figsize=(10, 5), layout="constrained")
    kept = [(x, offset * 1e6) for x, offset in zip(minutes, offsets) if abs(offset) <= STEP]
    top.plot(*zip(*kept), color=COLOURS["realtime"], linewidth=1.6)
    top.set_ylabel("offset, microseconds")
    for at in steps:
        top.annotate(f"{offsets[at]:.4g} s, stepped", (minutes[at], 1), (4, -14),
                     xycoords=("data", "axes fraction"), textcoords="offset points", fontsize=9)
    bottom.plot(minutes, frequencies, color=COLOURS["monotonic"], linewidth=1.6)
    bottom.fill_between(minutes, [f - s for f, s in zip(frequencies, skews)],
                        [f + s for f, s in zip(frequencies, skews)], color="#cccccc", zorder=1)
    last = frequencies[-1]
    bottom.set_ylim(last - FREQUENCY_SHOWN, last + FREQUENCY_SHOWN)
    bottom.set_ylabel("frequency error, ppm")
    bottom.set_xlabel("minutes")
    for axes in (top, bottom):
        axes.grid(True, color="#e6e6e6")
        axes.margins(x=0.01)
    figure.savefig(picture, metadata={"Date": None, "Creator": None})


def read_table(table):
    """Returns the columns of a table by their names. An empty field is not a number."""
    try:
        with open(table, newline="", encoding="utf-8") as file:
            names, *rows = csv.reader(file)
        return {name: [float(row[place] or "nan") for row in rows]
                for place, name in enumerate(names)}
    except (OSError, ValueError, IndexError, csv.Error) as error:
        raise Fault(f"{table} is no table of numbers: {error}") from None


def draw_table(table, picture, label):
    (across, places), *curves = read_table(table).items()
    figure, axes = plt.subplots(figsize=(10, 3.6), layout="constrained")
    for (name, values), width, colour in zip(curves, TABLE_WIDTHS[-len(curves):], TABLE_COLOURS):
        axes.plot(places, values, color=colour, linewidth=width, label=name)
    axes.set_xlabel(across)
    axes.set_ylabel(label)
    axes.grid(True, color="#e6e6e6")
    axes.margins(x=0.01)
    axes.legend(loc="center left", bbox_to_anchor=(1.01, 0.5), edgecolor="none", fontsize=9)
    figure.savefig(picture, metadata={"Date": None, "Creator": None})
