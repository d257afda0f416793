"""Scenes of triangles on the screen: reading .tri files, and the geometry that verdicts need.

Places are whole numbers of 1/256 pixel from the top left of the image, x to the right and y
downwards.
"""

from __future__ import annotations

import re
import struct
from dataclasses import dataclass, replace
from math import hypot

from testing.faults import Unusable

Place = tuple[int, int]

# Offsets of the samples in 1/16 pixel from the pixel's centre.
OFFSETS: dict[int, list[Place]] = {
    1: [(0, 0)],
    2: [(4, 4), (-4, -4)],
    4: [(-2, -6), (6, -2), (-6, 2), (2, 6)],
    8: [(1, -3), (-1, 3), (5, 1), (-3, -5), (-5, 5), (-7, -1), (3, 7), (7, -7)],
    16: [(1, 1), (-1, -3), (-3, 2), (4, -1), (-5, -2), (2, 5), (5, 3), (3, -5),
         (-2, 6), (0, -7), (-4, -6), (-6, 4), (-8, 0), (7, -4), (6, 7), (-7, -8)],
}
# What the numbers of a line lie between, as examples/driver/scene.c has it.
SIDE, COLOUR, DEPTH, PLACE = (1, 4096), (0, 65535), (0, 16777215), (-(1 << 46), 1 << 46)
CORNER = (PLACE, PLACE, DEPTH)
RANGES = {"size": (SIDE,) * 2, "samples": ((1, 16),), "background": (COLOUR,) * 3,
          "t": (*CORNER, *CORNER, *CORNER, *(COLOUR,) * 4)}
NUMBER = re.compile("-?[0-9]{1,18}")


@dataclass(frozen=True)
class Triangle:
    corners: tuple[Place, Place, Place]
    depths: tuple[int, int, int]
    paint: tuple[int, ...]  # red, green, blue and alpha

    @property
    def edges(self) -> list[tuple[Place, Place]]:
        a, b, c = self.corners
        return [(a, b), (b, c), (c, a)]

    @property
    def area(self) -> int:
        return edge(*self.corners)

    @property
    def reach(self) -> int:
        """How far the farthest corner lies from the image's top left, in x or in y."""
        return max(abs(value) for corner in self.corners for value in corner)


@dataclass(frozen=True)
class Scene:
    width: int
    height: int
    samples: int
    background: tuple[int, ...]
    triangles: list[Triangle]

    def place(self, x: int, y: int, k: int) -> Place:
        """Where sample k of a pixel lies."""
        right, down = OFFSETS[self.samples][k]
        return 256 * x + 128 + 16 * right, 256 * y + 128 + 16 * down

    def rounded(self, bits: int) -> Scene:
        """The scene with its corners on the grid of so many subpixel bits, halves to even."""
        step = 2 ** max(0, 8 - bits)

        def moved(place: Place) -> Place:
            return nearest(place[0], step), nearest(place[1], step)

        return replace(self, triangles=[
            replace(t, corners=(moved(t.corners[0]), moved(t.corners[1]), moved(t.corners[2])))
            for t in self.triangles])

    def text(self) -> str:
        lines = [f"size {self.width} {self.height}", f"samples {self.samples}",
                 "background " + " ".join(map(str, self.background))]
        for t in self.triangles:
            values = [value for corner, depth in zip(t.corners, t.depths) for value in (*corner, depth)]
            lines.append("t " + " ".join(map(str, [*values, *t.paint])))
        return "".join(line + "\n" for line in lines)


def nearest(value: int, step: int) -> int:
    """The multiple of a step that is nearest, the even one of two."""
    below, rest = divmod(value, step)
    return (below + (2 * rest > step or (2 * rest == step and below % 2 == 1))) * step


def scene_of(text: str, path: str) -> Scene:
    """The scene of a file, whose name is told where it isn't one."""
    found: dict[str, list[int]] = {"background": [0, 0, 0]}
    triangles = []
    for number, line in enumerate(text.removesuffix("\n").split("\n"), 1):
        if line.startswith("#"):
            continue
        word, *rest = line.split(" ")
        values = [int(part) for part in rest if NUMBER.fullmatch(part)]
        ranges = RANGES.get(word, ())
        if not ranges or not len(ranges) == len(rest) == len(values):
            raise Unusable(f"{path}: line {number} isn't one of a .tri file: {line[:40]!r}")
        for value, (least, most) in zip(values, ranges):
            if not least <= value <= most:
                raise Unusable(f"{path}: line {number}: {value} isn't {least} to {most}")
        if word == "t":
            xa, ya, qa, xb, yb, qb, xc, yc, qc, *paint = values
            triangles.append(Triangle(((xa, ya), (xb, yb), (xc, yc)), (qa, qb, qc), tuple(paint)))
        else:
            found[word] = values
    if "size" not in found or found.get("samples", [0])[0] not in OFFSETS:
        raise Unusable(f"{path}: has no size, or no number of samples of 1, 2, 4, 8 or 16")
    width, height = found["size"]
    return Scene(width, height, found["samples"][0], tuple(found["background"]), triangles)


# ---- geometry


def edge(a: Place, b: Place, s: Place) -> int:
    """Above 0 where s lies to the right of the way from a to b on the screen."""
    return (b[0] - a[0]) * (s[1] - a[1]) - (b[1] - a[1]) * (s[0] - a[0])


def is_on(a: Place, b: Place, s: Place) -> bool:
    """Whether a place lies exactly on an edge."""
    return (min(a[0], b[0]) <= s[0] <= max(a[0], b[0]) and min(a[1], b[1]) <= s[1] <= max(a[1], b[1])
            and edge(a, b, s) == 0)


def distance_from(a: Place, b: Place, s: Place) -> float:
    """Of a place from an edge; 0 exactly if it lies on it."""
    along = (b[0] - a[0], b[1] - a[1])
    part = along[0] * (s[0] - a[0]) + along[1] * (s[1] - a[1])
    length = along[0] ** 2 + along[1] ** 2
    if part <= 0 or part >= length:
        return min(hypot(s[0] - p[0], s[1] - p[1]) for p in (a, b))
    return abs(edge(a, b, s)) / length ** 0.5


def distance(triangle: Triangle, s: Place) -> float:
    """Of a place from the outline of a triangle."""
    return min(distance_from(a, b, s) for a, b in triangle.edges)


def is_float(value: int) -> bool:
    """Whether a whole number is a float of 32 bits."""
    try:
        return struct.unpack("f", struct.pack("f", value))[0] == value
    except OverflowError:
        return False


def bits_needed(value: int) -> int:
    """The subpixel bits that a coordinate needs, 0 to 8."""
    return next(bits for bits in range(9) if value % 2 ** (8 - bits) == 0)
