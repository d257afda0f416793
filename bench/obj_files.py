#!/usr/bin/env python3
"""Writes OBJ files of a given size, for measuring how fast a scene is read.

    obj_files.py KIND BYTES [SEED] > scene.obj

    obj_files.py mixed 8388608 > mixed.obj

KIND is one of

    decimals   points with six decimals and triangles with indices from 1, as exporters write them
    exponents  points with exponents and long fractions
    polygons   faces of 3 to 1024 elements, each with texture and normal
    negative   triangles behind their points, with indices that count back
    names      a usemtl line before each face, with one of 4096 names
    passed     lines that aren't read: comments, vt, vn, o, g, s
    mixed      all of these in turn
    library    the MTL library that `names` and `mixed` name, with 4096 materials; BYTES isn't used

The file has at most BYTES bytes (at most 67108864 are read), at most 1048576 points and at most
1048576 triangles in the fans of its faces; where these limits are met before BYTES, it is filled up
with lines that aren't read. The same arguments give the same bytes on every machine.
"""

import os
import sys

sys.path.insert(0, os.path.join(os.path.dirname(os.path.dirname(os.path.abspath(__file__))), "tools"))
from abuflib import report  # noqa: E402
from abuflib.scene import MOST_POINTS, MOST_TRIANGLES  # noqa: E402


class Numbers:
    """A linear congruential generator, so that the bytes hang on no library's random numbers."""

    def __init__(self, seed):
        self.state = seed % 2**64

    def below(self, n):
        self.state = (6364136223846793005 * self.state + 1442695040888963407) % 2**64
        return (self.state >> 33) % n


class Scene:
    def __init__(self, size, seed, out):
        self.left = size
        self.points = 0
        self.triangles = 0
        self.numbers = Numbers(seed)
        self.out = out

    def put(self, text):
        """Writes whole lines where they fit."""
        data = text.encode("ascii")
        if len(data) > self.left:
            return False
        self.out.write(data)
        self.left -= len(data)
        return True

    def has_room(self, points, triangles):
        return self.points + points <= MOST_POINTS and self.triangles + triangles <= MOST_TRIANGLES

    def decimal(self):
        sign = "-" if self.numbers.below(2) else ""
        return f"{sign}{self.numbers.below(100)}.{self.numbers.below(1000000):06d}"

    def exponent(self):
        sign = "-" if self.numbers.below(2) else "+"
        return f"{sign}{self.numbers.below(10)}.{self.numbers.below(10**12):012d}e{self.numbers.below(7) - 5}"

    def triangle(self, number, first=True):
        """Three points and one face over them."""
        if not self.has_room(3, 1):
            return self.passed()
        lines = "".join(f"v {number()} {number()} {number()}\n" for _ in range(3))
        at = self.points
        corners = [at + 1, at + 2, at + 3] if first else [-3, -2, -1]
        if not self.put(lines + "f {} {} {}\n".format(*corners)):
            return False
        self.points += 3
        self.triangles += 1
        return True

    def decimals(self):
        return self.triangle(self.decimal)

    def exponents(self):
        return self.triangle(self.exponent)

    def negative(self):
        return self.triangle(self.decimal, first=False)

    def polygons(self):
        """One face over points that stand already."""
        if self.points < 3:
            return self.decimals()
        count = 3 + self.numbers.below(6) if self.numbers.below(16) else 3 + self.numbers.below(1022)
        if not self.has_room(0, count - 2):
            return self.passed()
        elements = (self.numbers.below(self.points) + 1 for _ in range(count))
        if not self.put("f " + " ".join(f"{i}/{i}/{i}" for i in elements) + "\n"):
            return False
        self.triangles += count - 2
        return True

    def names(self):
        if not self.put(f"usemtl material {self.numbers.below(4096)}\n"):
            return False
        return self.triangle(self.decimal, first=False)

    def passed(self):
        line = (
            "# a comment\n",
            f"vt {self.decimal()} {self.decimal()}\n",
            f"vn {self.decimal()} {self.decimal()} {self.decimal()}\n",
            f"o object{self.numbers.below(100)}\n",
            "g group\n",
            "s off\n",
        )[self.numbers.below(6)]
        return self.put(line)

    def mixed(self):
        kinds = (self.decimals, self.exponents, self.polygons, self.negative, self.names, self.passed)
        return kinds[self.numbers.below(len(kinds))]()

    def library(self):
        for i in range(4096):
            colour = " ".join(f"0.{self.numbers.below(1000000):06d}" for _ in range(3))
            self.out.write(f"newmtl material {i}\nKd {colour}\nd 0.{self.numbers.below(1000):03d}\n".encode("ascii"))


KINDS = ("decimals", "exponents", "polygons", "negative", "names", "passed", "mixed", "library")


def write(kind, size, out, seed=1):
    """Writes a file of this kind and of at most so many bytes."""
    scene = Scene(size, seed, out)
    if kind == "library":
        return scene.library()
    if kind in ("names", "mixed"):
        scene.put("mtllib scene.mtl\n")
    step = getattr(scene, kind)
    while step():
        pass


def main():
    ask = report.words(__doc__)
    ask.add_argument("kind", metavar="KIND", choices=KINDS)
    ask.add_argument("bytes", metavar="BYTES", type=int)
    ask.add_argument("seed", metavar="SEED", type=int, nargs="?", default=1)
    given = ask.parse_args()
    write(given.kind, given.bytes, sys.stdout.buffer, given.seed)
    sys.stdout.buffer.flush()


if __name__ == "__main__":
    report.end(main)
