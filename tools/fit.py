#!/usr/bin/env python3
"""Prints the words by which abuf shows a whole model.

    fit.py [--turn=A,B,C,D] [--size WxH] [FILE.obj]

    abuf render $(fit.py --turn=8,2,-3,0 cube.obj) < cube.obj > cube.pam

The points of all 'v' lines of the file, or of standard input, are turned as the camera turns them.
The words --move, --near and --focal that are printed then put all of them into the image with a
small margin, and the near plane close before the nearest. The turn and the size are printed too
where they are given.

The status is 2, and nothing is printed, where there is no point or the camera can't show all.
"""

import math
import re
import sys
from typing import Iterable, Iterator, Sequence

from abuflib import report
from abuflib.report import Fault
from abuflib.scene import BLANKS, FARTHEST, LENGTH as UNIT, lines, scaled, size_of, turn_of

MOST_SHIFT = 32767 * UNIT
MOST_FOCAL = 16 * UNIT
LEAST_NEAR = 4096
USUAL_FOCAL = 2.0  # taken unless the model is too small or too large for it
FILLED = 0.92  # the share of the image's width or height that the model takes
AHEAD = 0.98  # the near plane's share of the way to the nearest point
NEAREST = LEAST_NEAR / AHEAD + 16

# A point as most programs write it, whose numbers are within the range.
PLAIN = re.compile(rb"v" + 3 * rb" +([+-]?[0-9]{1,4}\.[0-9]{1,16})" + rb"(?:[ \r]|$)")

Place = tuple[float, ...]


# ---- reading


def points_of(data: bytes) -> set[tuple[int, ...]]:
    """The points of the 'v' lines, in units, each once."""
    points: set[tuple[int, ...]] = set()
    for number, line in enumerate(data.split(b"\n"), 1):
        if plain := PLAIN.match(line):
            points.add((round(float(plain[1]) * UNIT), round(float(plain[2]) * UNIT), round(float(plain[3]) * UNIT)))
        elif line.lstrip(BLANKS)[:1] == b"v":
            points.update(unusual(line, number))
    if not points:
        raise Fault("no points: the file has no 'v' lines")
    return points


def unusual(line: bytes, number: int) -> Iterator[tuple[int, int, int]]:
    """The point of a line that may have one, in whatever form."""
    for one in lines(line):
        if one.keyword == b"v":
            parts = [scaled(token, UNIT) for token in one.arguments[:3]]
            if len(parts) < 3:
                raise Fault(f"line {number}: fewer than three coordinates; fix_obj.py fixes it")
            x, y, z = parts
            if x is None or y is None or z is None:
                raise Fault(f"line {number}: a coordinate that isn't a number below 32768; fix_obj.py fixes it")
            yield x, y, z


# ---- fitting


def turned(points: Iterable[tuple[int, ...]], turn: Sequence[int]) -> list[Place]:
    """The points as the camera turns them."""
    a, b, c, d = turn
    n = a * a + b * b + c * c + d * d
    rows = (
        (a * a + b * b - c * c - d * d, 2 * (b * c - a * d), 2 * (b * d + a * c)),
        (2 * (b * c + a * d), a * a - b * b + c * c - d * d, 2 * (c * d - a * b)),
        (2 * (b * d - a * c), 2 * (c * d + a * b), a * a - b * b - c * c + d * d),
    )
    return [tuple((r[0] * x + r[1] * y + r[2] * z) / n for r in rows) for x, y, z in points]


def decimal(units: float, places: int) -> tuple[str, int]:
    """The text of a length, and the units that it stands for."""
    text = f"{units / UNIT:.{places}f}"
    text = text.rstrip("0").rstrip(".") if "." in text else text
    text = "0" if text == "-0" else text
    return text, round(float(text) * UNIT)


def rounded_down(units: float) -> str:
    """A text of a length above 0 that is no greater, and nearly so great."""
    if units >= 1000:
        places = 3 - math.floor(math.log10(units / UNIT))
        scale = 10.0 ** places
        text = f"{math.floor(units / UNIT * scale) / scale:.{max(places, 0)}f}"
    else:
        text = f"{math.floor(units) / UNIT:.16f}"
    return text.rstrip("0").rstrip(".") if "." in text else text


def span(points: Sequence[Place], along: int, slope: float) -> tuple[float, float]:
    """How far back the camera has to be for a slope to the sides, and the shift to the side then.

    A point at the distance w is shown where its place to the side is at most slope·w either way.
    """
    low = max(slope * p[2] - p[along] for p in points)
    high = max(slope * p[2] + p[along] for p in points)
    return (low + high) / (2 * slope), (low - high) / 2


def shift_of(points: Sequence[Place], aspect: float) -> tuple[Place, float, float]:
    """The shift, the distance of the nearest point then, and the focal length.

    The focal length is the usual one, or another where the near plane or the shift would be out of
    range with it.
    """
    front = max(p[2] for p in points)
    focal = USUAL_FOCAL
    while True:
        slope = FILLED / focal
        back_x, shift_x = span(points, 0, slope * aspect)
        back_y, shift_y = span(points, 1, slope)
        back = max(back_x, back_y)
        if back > MOST_SHIFT and front < MOST_SHIFT and focal > 1 / UNIT:
            focal /= 2
        elif back < front + NEAREST and USUAL_FOCAL <= focal < 16:
            focal *= 2
        else:
            break
    back = max(back, front + NEAREST)
    return (shift_x, shift_y, -back), back - front, focal


def fit(points: Sequence[Place], aspect: float) -> tuple[list[str], str | None]:
    """The words --move, --near and --focal, and a remark or None."""
    shift, nearest, wanted = shift_of(points, aspect)
    places = max(0, min(7, 3 - math.floor(math.log10(nearest / UNIT))))
    texts, shift = zip(*(decimal(part, places) for part in shift))
    seen = [(p[0] + shift[0], p[1] + shift[1], -(p[2] + shift[2])) for p in points]
    nearest = min(w for _, _, w in seen)
    focal = min(FILLED * w / max(abs(x) / aspect, abs(y), 1e-9) for x, y, w in seen) * UNIT
    if max(abs(part) for part in shift) > FARTHEST or nearest < LEAST_NEAR or focal < 1:
        raise Fault("the model is too large or too far away for the camera: fix_obj.py scales or moves it")
    if abs(focal - wanted * UNIT) < 0.005 * focal:
        focal = wanted * UNIT  # all but for the rounding of the shift
    near = rounded_down(max(LEAST_NEAR, min(FARTHEST, AHEAD * nearest)))
    words = [f"--move={','.join(texts)}", f"--near={near}",
             f"--focal={rounded_down(min(MOST_FOCAL, focal))}"]
    remark = None
    if focal > 2 * MOST_FOCAL:
        remark = "the model is shown small, since the camera enlarges no further: fix_obj.py --scale enlarges it"
    if any(max(p[i] for p in points) == min(p[i] for p in points) for i in (0, 1)):
        remark = "the model is seen edge on, so nothing of it shows: give another --turn"
    return words, remark


def main() -> None:
    parser = report.words(__doc__)
    parser.add_argument("file", nargs="?", help="an OBJ file; standard input without one")
    parser.add_argument("--turn", type=turn_of, metavar="A,B,C,D",
                        help="the camera's turn, as abuf takes it (1,0,0,0)")
    parser.add_argument("--size", type=size_of, metavar="WxH",
                        help="the size of the image, as abuf takes it (640x480)")
    given = parser.parse_args()
    width, height = given.size or (640, 480)
    if given.file is None:
        data = sys.stdin.buffer.read()
    else:
        with open(given.file, "rb") as file:
            data = file.read()
    words, remark = fit(turned(points_of(data), given.turn or (1, 0, 0, 0)), width / height)
    if given.turn:
        words.insert(0, "--turn=" + ",".join(map(str, given.turn)))
    if given.size:
        words.insert(0, f"--size={width}x{height}")
    print(*words)
    if remark:
        print(f"fit.py: {remark}", file=sys.stderr)


if __name__ == "__main__":
    report.end(main)
