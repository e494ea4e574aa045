#!/usr/bin/env python3
"""Draws docs/speed.svg from bench/out/results.csv: how the audit's time grows with gates, with runs in the store and with records."""
import csv
import math
import pathlib

HERE = pathlib.Path(__file__).resolve().parent
RESULTS = HERE / "out" / "results.csv"
PICTURE = HERE.parent / "docs" / "speed.svg"
WIDTH, HEIGHT = 960, 322
PANEL_WIDTH, PANEL_HEIGHT, TOP, LEFT, GAP = 235, 190, 78, 62, 80
LINES = [("verified_ns", "verified library", "#0b5fa5", ""), ("twin_ns", "unverified twin", "#c2500a", "5 3")]


def rows_of(table, circuit=None):
    """The rows of one table, of one circuit where it is named."""
    with RESULTS.open() as file:
        rows = [row for row in csv.DictReader(file) if row["table"] == table]
    return [row for row in rows if circuit in (None, row["circuit"])]


def points(rows, column, line, unit, per_record):
    """One line's points: the column's number and the time in units of so many nanoseconds."""
    return [
        (float(row[column]), float(row[line]) / unit / (float(row["records"]) if per_record else 1)) for row in rows
    ]


def decades(low, high):
    """The powers of ten within a range."""
    first, last = math.ceil(math.log10(low) - 1e-9), math.floor(math.log10(high) + 1e-9)
    return [10.0**power for power in range(first, last + 1)]


def steps(high):
    """Round numbers from 0 up to at least `high`, four or five of them."""
    size = 10 ** math.floor(math.log10(high))
    step = next(size * part for part in (0.1, 0.2, 0.25, 0.5, 1, 2, 2.5) if size * part * 5 >= high)
    return [step * place for place in range(math.ceil(high / step) + 1)]


def binary(low, high):
    """Every other power of two within a range."""
    return [2.0**power for power in range(round(math.log2(low)), round(math.log2(high)) + 1, 2)]


def label(number):
    """A number of an axis: thousands with commas, no needless zeros."""
    return f"{number:,.0f}" if number >= 100 or number == int(number) else f"{number:g}"


def text(x, y, words, anchor="middle", more=""):
    """A piece of text."""
    return f'<text x="{x:.1f}" y="{y:.1f}" text-anchor="{anchor}" {more}>{words}</text>'


class Axis:
    """The places of the numbers from `low` to `high` along one axis, with some of them marked."""

    def __init__(self, marks, low, high, logarithmic):
        self.marks, self.low, self.high = marks, low, high
        self.scale = math.log if logarithmic else float
        self.start = self.end = 0

    def put(self, start, end):
        """Where the axis begins and ends."""
        self.start, self.end = start, end

    def place(self, number):
        """Where a number stands."""
        low, high = self.scale(self.low), self.scale(self.high)
        return self.start + (self.scale(number) - low) / (high - low) * (self.end - self.start)


def plain(most):
    """An axis from 0."""
    marks = steps(most)
    return Axis(marks, 0, marks[-1], False)


def frame(across, up, title, below, beside):
    """The marks, titles and grid lines of a panel."""
    left, right, bottom, top = across.start, across.end, up.start, up.end
    drawn = [text((left + right) / 2, top - 12, title, more='font-weight="bold"')]
    for mark in up.marks:
        y = up.place(mark)
        drawn.append(f'<path d="M{left} {y:.1f}H{right}" stroke="#dddddd"/>')
        drawn.append(text(left - 6, y + 4, label(mark), "end"))
    for mark in across.marks:
        x = across.place(mark)
        drawn.append(f'<path d="M{x:.1f} {bottom}v4" stroke="#444444"/>')
        drawn.append(text(x, bottom + 18, label(mark)))
    drawn.append(f'<path d="M{left} {top}V{bottom}H{right}" fill="none" stroke="#444444"/>')
    drawn.append(text((left + right) / 2, bottom + 38, below))
    middle = (top + bottom) / 2
    drawn.append(text(left - 48, middle, beside, more=f'transform="rotate(-90 {left - 48} {middle})"'))
    return drawn


def curve(line, across, up, colour, dashes):
    """One line with a dot at each point."""
    places = [(across.place(x), up.place(y)) for x, y in line]
    path = "M" + "L".join(f"{x:.1f} {y:.1f}" for x, y in places)
    drawn = [f'<path d="{path}" fill="none" stroke="{colour}" stroke-width="2" stroke-dasharray="{dashes}"/>']
    return drawn + [f'<circle cx="{x:.1f}" cy="{y:.1f}" r="3" fill="{colour}"/>' for x, y in places]


def panel(place, lines, across, up, titles):
    """One panel with its two lines."""
    left = LEFT + place * (PANEL_WIDTH + GAP)
    across.put(left, left + PANEL_WIDTH)
    up.put(TOP + PANEL_HEIGHT, TOP)
    drawn = frame(across, up, *titles)
    for line, (_, _, colour, dashes) in zip(lines, LINES):
        drawn += curve(line, across, up, colour, dashes)
    return drawn


def ends(lines):
    """The least and the greatest number and time of some lines."""
    xs = [x for line in lines for x, _ in line]
    ys = [y for line in lines for _, y in line]
    return min(xs), max(xs), min(ys), max(ys)


def by_gates():
    """The panel of gates."""
    lines = [points(rows_of("gates"), "gates", line, 1e3, True) for line, *_ in LINES]
    _, most, _, longest = ends(lines)
    titles = ("by gates (adder chains)", "gates", "µs per record")
    return panel(0, lines, plain(most), plain(longest), titles)


def by_runs():
    """The panel of runs in the store."""
    lines = [points(rows_of("runs"), "runs", line, 1e3, True) for line, *_ in LINES]
    least, most, _, longest = ends(lines)
    titles = ("by runs in the store", "runs of both edges (log scale)", "µs per record")
    return panel(1, lines, Axis(binary(least, most), least, most, True), plain(longest), titles)


def by_records():
    """The panel of records."""
    lines = [points(rows_of("records", "mult6_nand"), "records", line, 1e6, False) for line, *_ in LINES]
    least, most, shortest, longest = ends(lines)
    titles = ("by records (mult6_nand)", "records (log scale)", "ms (log scale)")
    low, high = shortest / 1.5, longest * 1.5
    across, up = Axis(decades(least, most), least, most, True), Axis(decades(low, high), low, high, True)
    return panel(2, lines, across, up, titles)


def legend():
    """The title and the names of the lines."""
    drawn = [text(16, 26, "Processor time of the audit", "start", 'font-weight="bold" font-size="16"')]
    for place, (_, name, colour, dashes) in enumerate(LINES):
        x = 300 + 190 * place
        drawn.append(f'<path d="M{x} 21h34" stroke="{colour}" stroke-width="2" stroke-dasharray="{dashes}"/>')
        drawn.append(f'<circle cx="{x + 17}" cy="21" r="3" fill="{colour}"/>')
        drawn.append(text(x + 42, 26, name, "start"))
    return drawn


def main():
    """Writes the picture."""
    head = (
        f'<svg xmlns="http://www.w3.org/2000/svg" viewBox="0 0 {WIDTH} {HEIGHT}" width="{WIDTH}" height="{HEIGHT}" '
        'font-family="Helvetica, Arial, sans-serif" font-size="13" fill="#222222">'
    )
    ground = f'<rect width="{WIDTH}" height="{HEIGHT}" fill="#ffffff"/>'
    parts = [head, ground, *legend(), *by_gates(), *by_runs(), *by_records(), "</svg>"]
    PICTURE.write_text("\n".join(parts) + "\n", encoding="utf-8")


main()
