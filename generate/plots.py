#!/usr/bin/env python3
"""Draws the plots of docs/pictures as SVG, for light and dark pages: from the CSV that `make bench BENCH=docs/pictures`
wrote, and from the terminal that bench/terminal.sh recorded. The other pictures are drawn by hand.

usage: generate/plots.py [--check]        (--check: fails if a plot is not what its data give)"""

import csv
import math
import sys
import textwrap
from html import escape
from pathlib import Path
from typing import NamedTuple

PICTURES = Path(__file__).resolve().parent.parent / "docs/pictures"
STYLE = """\
text { font: 13px system-ui, sans-serif; fill: #1f2328 }
.strong { font-weight: 600 }
.middle { text-anchor: middle }
.end { text-anchor: end }
.grid { fill: none; stroke: #d0d7de; stroke-width: 1 }
.leader { fill: none; stroke: #8c959f; stroke-width: 1 }
.curve { fill: none; stroke: #57606a; stroke-width: 2 }
.ours { fill: none; stroke: #0969da; stroke-width: 4 }
.bar { fill: #d0d7de; stroke: #57606a; stroke-width: 1 }
.ours_bar { fill: #0969da; stroke: #0969da; stroke-width: 1 }
.screen { fill: #0d1117; stroke: #57606a; stroke-width: 1.5 }
.shown { font: 12px ui-monospace, monospace; fill: #e6edf3 }
.faint { font: 12px ui-monospace, monospace; fill: #9198a1 }
@media (prefers-color-scheme: dark) {
text { fill: #e6edf3 }
.grid { stroke: #3d444d }
.curve { stroke: #b1bac4 }
.ours { stroke: #58a6ff }
.bar { fill: #3d444d; stroke: #9198a1 }
.ours_bar { fill: #58a6ff; stroke: #58a6ff }
}"""
NAMES = {
    "keywrap": "keywrap (kit)",
    "hardware": "keywrap_hw (kit)",
    "openssl": "OpenSSL",
    "nettle": "nettle",
    "gcrypt": "libgcrypt",
    "C": "one table, in C",
    "portable": "portable C",
    "portable_hw": "portable C",
}
DASHES = {
    "OpenSSL": "8 3",
    "one table, in C": "2 3",
    "nettle": "8 3 2 3",
    "nettle, AES inst.": "1 3",
    "libgcrypt": "5 5",
    "keywrap (kit)": "5 2",
    "keywrap_hw (kit)": "14 3",
    "portable C": "2 6",
    "portable C, AES inst.": "10 2 2 2",
}
# In bold: what a reader of README can build.
WITHOUT_KIT = ("portable", "portable_hw")
LEFT = 44
PLOT = 266
HEIGHT = 190


class Drawing:
    """The elements of one picture, in the order in which they are painted."""

    def __init__(self, height, title, *heading):
        self.height = height
        self.title = title
        self.elements = []
        for number, words in enumerate(heading):
            self.text(8, 20 + 18 * number, words)

    def box(self, x, y, width, height, kind):
        self.elements.append(
            f'<rect class="{kind}" x="{x}" y="{y}" width="{width}" height="{height}"/>'
        )

    def text(self, x, y, words, kind=""):
        self.elements.append(
            f'<text xml:space="preserve" class="{kind}" x="{x}" y="{y}">{escape(words)}</text>'
        )

    def line(self, kind, *points, dash=None):
        path = " ".join(f"{x},{y}" for x, y in points)
        attributes = f'class="{kind}" points="{path}"'
        if dash:
            attributes += f' stroke-dasharray="{dash}"'
        self.elements.append(f"<polyline {attributes}/>")

    def note(self, about):
        """Below a plot: on what it was measured, next to which versions, and when."""
        run = f"{about['date']}, commit {about['commit']}"
        notes = [run, about["beside"], about["processor"]]
        for number, words in enumerate(notes):
            self.text(8, self.height - 10 - 16 * number, words)

    def svg(self):
        size = f'width="480" height="{self.height}" viewBox="0 0 480 {self.height}"'
        lines = [
            f'<svg xmlns="http://www.w3.org/2000/svg" {size} role="img">',
            f"<title>{escape(self.title)}</title>",
            f"<style>\n{STYLE}\n</style>",
            *self.elements,
            "</svg>",
        ]
        return "\n".join(lines) + "\n"


def read(name):
    """The comments (the processor, the date and the commit of the run, the others' versions) and the rows of a CSV."""
    lines = (PICTURES / f"{name}.csv").read_text(encoding="utf-8").splitlines()
    comments = [line[2:] for line in lines if line.startswith("# ")]
    table = [line for line in lines if not line.startswith("#")]
    about = dict(comment.split(": ", 1) for comment in comments)
    return about, list(csv.DictReader(table))


def size(length):
    """A length of key, short."""
    if length >= 1 << 20:
        return f"{length >> 20} MiB"
    if length >= 1 << 10:
        return f"{length >> 10} KiB"
    return str(length)


def apart(places, gap):
    """The same places, moved until all are a gap apart. The ones in the middle move least."""
    upwards = sorted(range(len(places)), key=places.__getitem__)
    downwards = upwards[::-1]
    moved = list(places)
    for before, after in zip(upwards, upwards[1:]):
        moved[after] = max(moved[after], moved[before] + gap)
    # The last one goes half of its way back, and pushes others back.
    last = upwards[-1]
    way = moved[last] - places[last]
    moved[last] -= way / 2
    for after, before in zip(downwards, downwards[1:]):
        moved[before] = min(moved[before], moved[after] - gap)
    return moved


class Axes(NamedTuple):
    """The logarithmic axes of a plot: lengths of keys to the right, nanoseconds upwards."""

    top: int
    shortest: int
    longest: int
    low: float
    high: float

    def x(self, length):
        whole = math.log(self.longest / self.shortest)
        part = math.log(length / self.shortest) / whole
        return round(LEFT + PLOT * part, 1)

    def y(self, time):
        part = (self.high - math.log10(time)) / (self.high - self.low)
        return round(self.top + HEIGHT * part, 1)

    def point(self, row):
        return self.x(int(row["key"])), self.y(float(row["ns_per_block"]))


def axes_of(rows, top):
    """Axes on which all these rows have room."""
    times = [float(row["ns_per_block"]) for row in rows]
    lengths = [int(row["key"]) for row in rows]
    low = math.log10(min(times)) - 0.1
    high = math.log10(max(times)) + 0.1
    return Axes(top, min(lengths), max(lengths), low, high)


def grid(drawing, axes, lengths):
    for tick in (5, 10, 20, 50, 100, 200, 500, 1000, 2000):
        if axes.low < math.log10(tick) < axes.high:
            y = axes.y(tick)
            drawing.line("grid", (LEFT, y), (LEFT + PLOT, y))
            drawing.text(LEFT - 6, y + 4, str(tick), "end")
    below = axes.top + HEIGHT + 16
    for length in lengths:
        # Its label would touch the label of 16.
        if length != 32:
            drawing.text(axes.x(length), below, size(length), "middle")


def label_of(row):
    """The name of a library, and whether it is its build with AES instructions, where it has both."""
    name = NAMES[row["library"]]
    if row["blocks"] == "AES inst." and row["library"] != "hardware":
        return f"{name}, AES inst."
    return name


def curve(drawing, row, points, label_y):
    """The curve of one library, and its label, with a line from its end."""
    name = NAMES[row["library"]]
    label = label_of(row)
    line_kind = "curve"
    text_kind = ""
    if row["library"] in WITHOUT_KIT:
        line_kind = "ours"
        text_kind = "strong"
    dash = DASHES.get(label, DASHES.get(name))
    drawing.line(line_kind, *points, dash=dash)
    x, y = points[-1]
    drawing.line("leader", (x, y), (x + 12, round(label_y, 1)))
    drawing.text(x + 15, round(label_y + 4, 1), label, text_kind)


def curves(drawing, top, rows, call):
    """One call: nanoseconds for each block call over the key's length, on the axes of all rows."""
    axes = axes_of(rows, top)
    drawing.text(8, top - 10, call, "strong")
    lengths = {int(row["key"]) for row in rows}
    grid(drawing, axes, sorted(lengths))
    libraries = {}
    for row in rows:
        if row["call"] == call:
            libraries.setdefault(label_of(row), []).append(row)
    points_of = {}
    ends = []
    for label, of_library in libraries.items():
        points = [axes.point(row) for row in of_library]
        _, end = points[-1]
        points_of[label] = points
        ends.append(end)
    label_places = apart(ends, 16)
    for (label, of_library), label_y in zip(libraries.items(), label_places):
        curve(drawing, of_library[0], points_of[label], label_y)


def wrap(about, rows):
    drawing = Drawing(
        618,
        "Nanoseconds for each block call, over the length of the key",
        "Nanoseconds for each block call: less is better. There are six for",
        "each 8 bytes of key. Below: the length of the key, in bytes.",
        "All scales are logarithmic. KEKs of 32 bytes.",
    )
    shown = [row for row in rows if row["kek"] == "32"]
    curves(drawing, 96, shown, "wrap")
    curves(drawing, 346, shown, "unwrap")
    drawing.note(about)
    return drawing


def bars(about, title, below, rows):
    """A bar for each row of a group, a label and a value, all on one scale. keywrap's bars are blue."""
    most = max(value for _, _, value in rows)
    groups = {name for name, _, _ in rows}
    height = 108 + 28 * len(groups) + 26 * len(rows)
    drawing = Drawing(height, title, title, below)
    y = 46
    group = None
    for name, label, value in rows:
        if name != group:
            drawing.text(8, y + 20, name, "strong")
            group = name
            y += 28
        bar(drawing, y, label, value, most)
        y += 26
    drawing.note(about)
    return drawing


def bar(drawing, y, label, value, most):
    bar_kind = "bar"
    text_kind = ""
    if label.startswith("keywrap"):
        bar_kind = "ours_bar"
        text_kind = "strong"
    width = max(1, round(188 * value / most, 1))
    drawing.text(172, y + 15, label, "end")
    drawing.box(180, y, width, 20, bar_kind)
    drawing.text(186 + width, y + 15, f"{value:,.0f}", text_kind)


def many(about, rows):
    groups = {
        "0": "plain to plain",
        "12": "the form kept, keys under the new KEK passed",
    }
    shown = []
    for row in rows:
        if row["key"] == "32":
            group = groups[row["flags"]]
            shown.append((group, row["way"], int(row["ns_per_key"])))
    return bars(
        about,
        "Nanoseconds for a rewrap of a key of 32 bytes: less is better.",
        "KEKs of 32 bytes. One core.",
        shown,
    )


def lines(about, rows):
    shown = []
    for row in rows:
        if row["job"] != "check":
            shown.append((row["job"], row["way"], int(row["keys_per_second"])))
    return bars(
        about,
        "Keys per second of processor time: more is better.",
        "From a file into a file. Keys and KEKs of 32 bytes.",
        shown,
    )


def provider(about, rows):
    shown = []
    for row in rows:
        if row["cipher"] != "AES-256-WRAP":
            continue
        group = f"{row['call']}, key of {row['key']} bytes"
        block_calls = 6 * int(row["key"]) / 8
        for name, column in (
            ("OpenSSL's provider", "default_ns"),
            ("keywrap", "keywrap_ns"),
        ):
            shown.append((group, name, int(row[column]) / block_calls))
    return bars(
        about,
        "Nanoseconds for each block call by OpenSSL's EVP: less is better.",
        "AES-256-WRAP. Six block calls for each 8 bytes of key.",
        shown,
    )


def terminal_lines(line):
    """A line of the record on as many lines as the terminal has, each with its colour."""
    mark, _, words = line.partition(" ")
    if mark == "$":
        first, *rest = textwrap.wrap(words, 55, break_on_hyphens=False)
        parts = [f"$ {first}"]
        for part in rest:
            parts[-1] += " \\"
            parts.append(f"    {part}")
        return [("shown", part) for part in parts]
    colour = "faint" if mark == "during:" else "shown"
    return [(colour, part) for part in textwrap.wrap(words, 61)]


def rotation():
    record = (PICTURES / "rotation.txt").read_text(encoding="utf-8")
    heading, *lines = record.splitlines()
    _, _, length = heading.partition(" ")
    shown = []
    for line in lines:
        shown += terminal_lines(line)
    title = (
        f"A terminal during and after a rotation of a million keys of {length} bytes"
    )
    height = 28 + 20 * len(shown)
    drawing = Drawing(height, title)
    drawing.box(1, 1, 478, height - 2, "screen")
    for number, (colour, words) in enumerate(shown):
        drawing.text(14, 28 + 20 * number, words, colour)
    return drawing


def pictures():
    """The name and the text of each picture."""
    for draw in wrap, many, lines, provider:
        about, rows = read(draw.__name__)
        yield draw.__name__, draw(about, rows).svg()
    yield "rotation", rotation().svg()


def main(arguments):
    is_stale = False
    for name, text in pictures():
        path = PICTURES / f"{name}.svg"
        if arguments != ["--check"]:
            path.write_text(text, encoding="utf-8")
        elif not path.exists() or path.read_text(encoding="utf-8") != text:
            is_stale = True
            print(f"docs/pictures/{path.name}: stale, run make pictures")
    return is_stale


if __name__ == "__main__":
    sys.exit(main(sys.argv[1:]))
