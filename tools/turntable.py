#!/usr/bin/env python3
"""Writes the path of a camera that goes once round a scene, for abuf sequence.

    turntable.py [--images N] [--tilt A,B] [--move X,Y,Z] [--note TEXT] > scene.path

The scene turns about its vertical axis, y, by equal steps. --tilt A,B tilts it besides as the turn
A,B,0,0 does, so that the camera looks down on it, and --move is the shift of every shot, as in abuf.
The quaternion of a shot is (A·a, B·a, A·b, B·b), with whole numbers a and b whose ratio comes
nearest to that of the step, and all four parts from -1024 to 1024. So the tilt is exact in every
shot. The same words give the same bytes. With a note that has the command which draws it, this wrote
examples/lantern.path:

    turntable.py --images 36 --tilt 8,1 --move=0,0.36,-8.6 --note "abuf sequence lantern.path .."
"""

import argparse
import math
import sys

from abuflib import report
from abuflib.scene import MOST_IMAGES, MOST_TURN as LARGEST


def nearest(angle, largest):
    """The whole numbers a and b, neither past the largest either way, whose direction comes nearest
    to the angle; of equally near ones the smallest."""
    best = None
    for long in range(1, largest + 1):
        if abs(math.cos(angle)) >= abs(math.sin(angle)):
            a = math.copysign(long, math.cos(angle))
            b = round(a * math.tan(angle))
        else:
            b = math.copysign(long, math.sin(angle))
            a = round(b / math.tan(angle))
        off = abs(math.remainder(math.atan2(b, a) - angle, 2 * math.pi))
        if best is None or off < best[0] - 1e-12:
            best = off, int(a), int(b)
    return best[1:]


def path(images, tilt, shift, note):
    """The lines of the path."""
    p, q = tilt
    lines = [f"# One turn about the vertical axis in {images} images. Written by tools/turntable.py."]
    lines += [f"# {line}" for line in note.splitlines()]
    for i in range(images):
        # A quaternion and its negative are one turn, so the half angle goes from 0 to a half turn.
        a, b = nearest(math.pi * i / images, LARGEST // max(abs(p), abs(q)))
        lines.append(" ".join(map(str, (p * a, q * a, p * b, q * b))) + " " + " ".join(shift))
    return "".join(line + "\n" for line in lines)


def tilt_of(text):
    parts = [int(part) for part in text.split(",") if part.lstrip("-").isdecimal()]
    if text.count(",") != 1 or len(parts) != 2 or not any(parts) or max(map(abs, parts)) > LARGEST:
        raise argparse.ArgumentTypeError(f"two whole numbers up to {LARGEST}, not {text}")
    return parts


def shift_of(text):
    parts = text.split(",")
    if len(parts) != 3:
        raise argparse.ArgumentTypeError(f"three numbers, not {text}")
    return parts


def main():
    parser = report.words(__doc__)
    parser.add_argument("--images", type=int, default=36, metavar="N",
                        help="images of the turn (36)")
    parser.add_argument("--tilt", type=tilt_of, default=[1, 0], metavar="A,B",
                        help="the tilt towards the camera (1,0: none)")
    parser.add_argument("--move", type=shift_of, default=["0", "0", "-4"], metavar="X,Y,Z",
                        help="the shift (0,0,-4)")
    parser.add_argument("--note", default="", metavar="TEXT", help="a further comment at the head")
    given = parser.parse_args()
    if not 1 <= given.images <= MOST_IMAGES:
        parser.error(f"a path has 1 to {MOST_IMAGES} images")
    sys.stdout.write(path(given.images, given.tilt, given.move, given.note))


if __name__ == "__main__":
    report.end(main)
