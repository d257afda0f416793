#!/usr/bin/env python3
"""Draws how the time for a unit of work grows as the work doubles, from what bench.py --growth prints.

    growth.py [FILE] [--folder FOLDER]      draws an SVG for each series
    growth.py [FILE] --check                checks that they are what it would draw

    bench.py --growth | growth.py - --folder /tmp

FILE is the output of bench.py --growth, in columns or in Markdown, or a document that holds it, whose first such table counts; - is
standard input. Without FILE it is README.md here, whose table the pictures of docs/pictures show. Each tells when and on what the
table was measured, and has colours for light and for dark pages.

The status is 0 where all is well, 1 where a picture differs, and 2 where there is no table of the growth.
"""

import math
import os
import re
import sys
from typing import Iterable, NamedTuple, Sequence

HERE = os.path.dirname(os.path.abspath(__file__))
sys.path.insert(0, os.path.join(os.path.dirname(HERE), "tools"))
import diagrams  # noqa: E402
from abuflib import report  # noqa: E402
from abuflib.report import Fault, Report  # noqa: E402
from diagrams import EDGE, PICTURES, WIDTH, Canvas, number  # noqa: E402

README = os.path.join(HERE, "README.md")


class Shown(NamedTuple):
    """What the picture of a series says, and whether it shows the time over the logarithm too."""

    title: str
    what: str
    is_over_log: bool


# Each series of bench.py --growth.
SERIES = {
    "triangles": Shown("Time for a triangle, as their number doubles", "In one small image, so that the lists grow too", True),
    "image": Shown("Time for a fragment, as the image doubles", "250 triangles in larger and larger images, with 8 samples", False),
    "text": Shown("Time for a line, as the text doubles", "Points and faces, which are read and projected", False),
    "list": Shown("Time for a fragment, as the list doubles", "Triangles that cross in one pixel, with 8 samples", True),
}

# ---- the table


class Step(NamedTuple):
    """A row: the work, and the nanoseconds for a unit of it."""

    work: int
    time: float


class Series(NamedTuple):
    name: str
    unit: str
    steps: list[Step]


class Growth(NamedTuple):
    """When and on what it was measured, and each series."""

    measured: str
    series: list[Series]


HEAD = ["series", "work", "unit"]
MEASURED = re.compile(r"(\d{4}-\d\d-\d\d, [^;]*)(?:;.*)?; (best of [^;]*)$")  # the tunables between them are left out


def cells_of(line: str) -> list[str]:
    """The cells of a row, in columns or in Markdown."""
    if line.startswith("|"):
        return [cell.strip() for cell in line.strip().strip("|").split("|")]
    return re.split(r" {2,}", line.strip())


def table_of(lines: Iterable[str]) -> tuple[str, list[dict[str, str]]]:
    """When and on what the first table of the growth was measured, and its rows by the names of their columns."""
    measured = ""
    head: list[str] = []
    rows: list[dict[str, str]] = []
    for line in lines:
        cells = cells_of(line)
        if head and not line.strip():
            break
        if head and len(cells) == len(head) and not set("".join(cells)) <= set("-:"):
            rows.append(dict(zip(head, cells)))
        elif cells[:len(HEAD)] == HEAD:
            head = cells
        elif not head and (found := MEASURED.search(line)):
            measured = ", ".join(found.groups())
    return measured, rows


def growth_of(text: str, name: str) -> Growth:
    """The growth that a text holds."""
    measured, rows = table_of(text.splitlines())
    if not rows or not measured:
        raise Fault(f"{name} has no table of bench.py --growth")
    found: dict[str, Series] = {}
    for row in rows:
        if row["series"] not in SERIES:
            raise Fault(f"{name} has the series {row['series']}, and growth.py knows {', '.join(SERIES)}")
        try:
            step = Step(int(row["work"]), float(row["ns a unit"]))
        except (KeyError, ValueError):
            raise Fault(f"{name} has a row of another form: {' '.join(row.values())}") from None
        if step.work < 2 or step.time <= 0:
            raise Fault(f"{name} has a time that no picture can show: {' '.join(row.values())}")
        found.setdefault(row["series"], Series(row["series"], row["unit"], [])).steps.append(step)
    for series in found.values():
        if any(after.work <= before.work for before, after in zip(series.steps, series.steps[1:])) or len(series.steps) < 2:
            raise Fault(f"{name} has no steps of {series.name} whose work grows")
    return Growth(measured, list(found.values()))


# ---- drawing

LEFT = 70  # of what is plotted, with room for 10,000
FIRST, LAST = LEFT + 22, WIDTH - EDGE - 22  # the first step and the last one
TALL, LESS_TALL = 170, 110  # the heights of the time, and of the time over the logarithm


class Law(NamedTuple):
    """How the time might grow, and the line that shows it."""

    name: str
    kind: str
    dashes: str


LINEAR, LOG = Law("linear", "line", "2 5"), Law("n log n", "orange-line", "8 5")


def marks(most: float) -> list[float]:
    """Round numbers from 0 to above the greatest value, four to seven of them."""
    size = 10 ** math.floor(math.log10(most))
    step = next(size * part for part in (0.2, 0.25, 0.5, 1, 2) if most / (size * part) < 5.5)
    return [step * k for k in range(math.floor(most / step) + 2)]


def mark_text(value: float) -> str:
    return f"{value:,.6g}" if value < 10 else f"{value:,.0f}"


def mean(values: Sequence[float]) -> float:
    return sum(values) / len(values)


MEASURED_LINE = "blue-line"


def broken(canvas: Canvas, steps: str, law: Law) -> None:
    canvas.put("path", law.kind, f'd="{steps}" stroke-dasharray="{law.dashes}"')


def dot(canvas: Canvas, x: float, y: float) -> None:
    canvas.put("circle", "blue-head", f'cx="{number(x)}" cy="{number(y)}" r="4"')


class Curves(NamedTuple):
    """A value at each step: as measured, and as they would be by either law."""

    measured: list[float]
    linear: list[float]
    log: list[float]


def x_of(works: Sequence[int]) -> list[float]:
    """The places of the steps, by the logarithm of the work."""
    first, last = math.log2(works[0]), math.log2(works[-1])
    return [FIRST + (LAST - FIRST) * (math.log2(work) - first) / (last - first) for work in works]


def plot(canvas: Canvas, top: float, bottom: float, places: Sequence[float], curves: Curves) -> None:
    """The curves, over axes that begin at 0, with a line at each round value and a mark for each step."""
    values = marks(max(max(curve) for curve in curves))

    def y_of(value: float) -> float:
        return bottom - (bottom - top) * value / values[-1]

    def path_of(curve: Sequence[float]) -> str:
        return "M" + "L".join(f"{number(x)} {number(y_of(value))}" for x, value in zip(places, curve))

    for value in values:
        canvas.path(f"M{LEFT} {number(y_of(value))}H{WIDTH - EDGE}", "thin" if value else "line")
        canvas.text(LEFT - 8, y_of(value) + 4.5, mark_text(value), "small soft end")
    canvas.path("".join(f"M{number(x)} {number(bottom)}v5" for x in places), "line")
    broken(canvas, path_of(curves.linear), LINEAR)
    broken(canvas, path_of(curves.log), LOG)
    canvas.path(path_of(curves.measured), MEASURED_LINE)
    for x, value in zip(places, curves.measured):
        dot(canvas, x, y_of(value))


def work_texts(works: Sequence[int]) -> tuple[list[str], str]:
    """The numbers under the steps, and what they count in; in thousands, so that six of them fit."""
    if works[-1] < 10000:
        return [f"{work:,}" for work in works], ""
    return [f"{work / 1000:,.0f}" if work >= 100000 else f"{work / 1000:.1f}".removesuffix(".0") for work in works], "thousand "


def legend(canvas: Canvas, y: float) -> None:
    """What the lines are, from the left."""
    x, above, apart = float(EDGE), y - 4.5, 140
    canvas.path(f"M{number(x)} {number(above)}h30", MEASURED_LINE)
    dot(canvas, x + 15, above)
    for told, law in (("measured", None), (LINEAR.name, LINEAR), (LOG.name, LOG)):
        if law is not None:
            broken(canvas, f"M{number(x)} {number(above)}h30", law)
        canvas.text(x + 38, y, told, "small soft")
        x += apart


def picture(series: Series, measured: str) -> str:
    """The SVG of a series. Were its growth exactly linear or as n log n, the points would lie on the one or the other broken line,
    which have the mean time for a unit, and the mean of that time over the logarithm."""
    shown = SERIES[series.name]
    canvas = Canvas(shown.title)
    canvas.text(EDGE, 34, shown.title, "bold")
    canvas.text(EDGE, 54, shown.what, "small soft")
    legend(canvas, 80)
    works, times = [step.work for step in series.steps], [step.time for step in series.steps]
    logs = [math.log2(work) for work in works]
    factor = mean([time / log for time, log in zip(times, logs)])
    curves = Curves(times, [mean(times)] * len(works), [factor * log for log in logs])
    places, bottom = x_of(works), 118 + TALL
    canvas.text(EDGE, 106, f"nanoseconds a {series.unit}", "small")
    plot(canvas, bottom - TALL, bottom, places, curves)
    if shown.is_over_log:
        canvas.text(EDGE, bottom + 34, f"the same over the logarithm to base 2 of the {series.unit}s", "small")
        bottom += 46 + LESS_TALL
        plot(canvas, bottom - LESS_TALL, bottom, places, Curves(*([y / log for y, log in zip(curve, logs)] for curve in curves)))
    texts, counted = work_texts(works)
    for x, text in zip(places, texts):
        canvas.text(x, bottom + 20, text, "small soft middle")
    canvas.text((LEFT + WIDTH - EDGE) / 2, bottom + 40, f"{counted}{series.unit}s", "small middle")
    y = canvas.lines(EDGE, bottom + 68, wrapped("measured " + measured), "small soft")
    return canvas.svg(y - 2)


def wrapped(text: str, most: int = 66) -> list[str]:
    """Lines of at most so many characters, broken after a comma."""
    lines: list[str] = []
    for part in text.split(", "):
        if lines and len(lines[-1]) + 2 + len(part) <= most:
            lines[-1] += ", " + part
        else:
            lines.append(part)
    return [line + "," for line in lines[:-1]] + lines[-1:]


# ---- the files


def pictures(growth: Growth) -> dict[str, str]:
    """For each file its text."""
    return {f"growth-{series.name}.svg": picture(series, growth.measured) for series in growth.series}


def write(growth: Growth, folder: str) -> int:
    """Writes the pictures, and tells how many."""
    drawn = pictures(growth)
    for name, text in drawn.items():
        with open(os.path.join(folder, name), "w", encoding="utf-8") as file:
            file.write(text)
    return len(drawn)


def check(told: Report, path: str, text: str) -> None:
    """Whether a file is what is drawn."""
    try:
        with open(path, encoding="utf-8") as file:
            fault = None if file.read() == text else "isn't what growth.py draws"
    except FileNotFoundError:
        fault = "isn't there"
    told.add(os.path.basename(path), fault)


def read(path: str) -> str:
    if path == "-":
        return sys.stdin.read()
    with open(path, encoding="utf-8") as file:
        return file.read()


def main() -> int:
    ask = report.words(__doc__)
    ask.add_argument("file", metavar="FILE", nargs="?", default=README, help="what has the table (README.md)")
    ask.add_argument("--check", action="store_true", help="compare the files with what is drawn, and write none")
    ask.add_argument("--folder", metavar="FOLDER", default=PICTURES, help="where the files are (docs/pictures)")
    given = ask.parse_args()
    growth = growth_of(read(given.file), "standard input" if given.file == "-" else os.path.relpath(given.file))
    if given.check:
        told = Report("pictures")
        for name, text in pictures(growth).items():
            check(told, os.path.join(given.folder, name), text)
        return told.conclude()
    print(f"{write(growth, given.folder)} pictures in {given.folder}")
    return report.WELL


if __name__ == "__main__":
    report.end(main)
