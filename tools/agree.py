#!/usr/bin/env python3
"""Compares two images, such as one that abuf drew and one of another renderer.

    agree.py A B [--allow D] [--picture FILE] [--worst N]
             [--scene FILE --words "WORDS" [--abuf PATH]]

    agree.py answer.pam capture.png --picture where.png --worst 5 \\
             --scene crossing.obj --words "--size 40x30 --samples 4 --move=0,0,-3.3"

A and B are PAM, PPM, PGM or PNG. Grey counts as three equal channels, and alpha isn't compared.

It prints how many pixels differ and how many of their values (red, green, blue), the greatest
difference, and the mean one over all values. Then come the pixels of the greatest differences,
three or as many as --worst says, each with its values in A and in B. A pixel's difference is that
of its worst value.

Where the images differ in MAXVAL, one is scaled to the smaller of the two (to 255, if that is
smaller still), rounded to nearest, and that is said. abuf's image of MAXVAL 65535 gives its image
of MAXVAL 255 in this way, value by value.

--allow D     Differences of at most D aren't counted. Renderers that composite in floats or in
              8 bits come near the exact colour without meeting it.
--picture     A picture of where they differ, PNG if FILE ends in .png, else PAM. Where they agree
              it is A, grey and dim; where they don't it is red for a small difference to yellow for
              a great one.
--scene       The scene that abuf drew, and with --words the words that drew it, without the command.
              Below each of the worst pixels then stands the report of `abuf pick` there, and what
              another renderer may decide otherwise: the samples that lie exactly on an edge, and
              primitives of one sample whose depth keys differ by at most one.

The status is 0 where the images agree, 1 where they differ, and 2 where something couldn't be read
or run, or the sizes differ.
"""

import os
import shlex
from dataclasses import dataclass

import reference
from abuflib import pam, program, report
from abuflib.report import Fault
from abuflib.scene import round_div


# ---- images


def run(command, data=b"", folder=None):
    """What a program writes, or a Fault where it can't be run or ends in another status than 0."""
    return program.run_tool(command, data, folder=folder)


def image_of(data, name):
    """The image of these bytes; the name is told in a Fault."""
    return pam.read(data, name)


def scaled(image, maxval):
    """The image with another MAXVAL, its values rounded to nearest."""
    if image.maxval == maxval:
        return image
    table = [round_div(v * maxval, image.maxval) for v in range(image.maxval + 1)]
    values = (table[v] for v in pam.numbers(image.values, image.maxval))
    return pam.from_numbers(image.width, image.height, maxval, values)


def picture_of(a, differences):
    """Red to yellow where the images differ, and the first one, grey and dim, elsewhere."""
    pixels, values = bytearray(), pam.numbers(a.values, a.maxval)
    for place, difference in enumerate(differences):
        if difference:
            pixels += bytes((255, 255 * difference // a.maxval, 0))
        else:
            pixels += bytes([sum(values[3 * place:3 * place + 3]) * 85 // (3 * a.maxval)] * 3)
    return pam.Image(a.width, a.height, 255, bytes(pixels))


def write_picture(path, a, differences):
    pam.save(path, picture_of(a, differences))


# ---- the comparison


@dataclass
class Comparison:
    a: pam.Image
    b: pam.Image  # of the same size and MAXVAL
    scaling: str  # what was done to reach one MAXVAL, or empty
    pixels: list  # the difference of each pixel: that of its worst value, 0 if it is allowed
    values: int  # how many values differ by more than is allowed
    greatest: int  # difference of all values, whatever is allowed
    mean: float  # difference of all values

    def differing(self):
        return sum(1 for difference in self.pixels if difference)

    def worst(self, most):
        """The places of the pixels that differ most, the first of equals first."""
        places = [place for place, difference in enumerate(self.pixels) if difference]
        return sorted(places, key=lambda place: -self.pixels[place])[:most]


def compare(a, b, allow=0):
    if (a.width, a.height) != (b.width, b.height):
        raise Fault(f"the sizes differ: {a.width}x{a.height} and {b.width}x{b.height}")
    scaling = ""
    if a.maxval != b.maxval:
        maxval = max(255, min(a.maxval, b.maxval))
        scaling = f"MAXVAL {a.maxval} and {b.maxval}, compared after scaling to {maxval}"
        a, b = scaled(a, maxval), scaled(b, maxval)
    values = [abs(p - q) for p, q in zip(*(pam.numbers(i.values, i.maxval) for i in (a, b)))]
    pixels = [max(values[i:i + 3]) for i in range(0, len(values), 3)]
    pixels = [difference if difference > allow else 0 for difference in pixels]
    return Comparison(a, b, scaling, pixels, sum(1 for value in values if value > allow),
                      max(values), sum(values) / len(values))


# ---- what lies in a pixel


def triangles_of_file(path):
    """The triangles of a scene, whose libraries lie in its folder, each with its corners and its paint."""
    folder = os.fsencode(os.path.dirname(path))
    try:
        with open(path, "rb") as file:
            obj = reference.read_obj(file.read())
        materials = {}
        for number, name in enumerate(obj.libraries, 1):
            data = reference.fetch_from_folder(os.path.join(folder, name), reference.MOST_BYTES)
            if data is None:
                raise Fault(f"{path}: library {number} missing")
            reference.read_mtl(data, number, materials)
        return reference.triangles_of(obj, materials)
    except OSError as why:
        raise Fault(f"{path}: {why.strerror}")
    except reference.Refusal as refusal:
        raise Fault(f"{path}: {refusal.text}")


def primitives_of_file(path, job):
    """The primitives of a scene on the screen."""
    return reference.primitives_of(job, triangles_of_file(path))


def is_on_edge(primitive, s):
    """Whether the sample lies on the outline of a primitive that has area."""
    a, b, c = primitive.corners
    sides = [reference.edge(*ends, s) for ends in ((a, b), (b, c), (c, a))]
    return primitive.area > 0 and min(sides) == 0


def close_calls(job, primitives, x, y):
    """A line for each sample on an edge, and for neighbours in its order with keys within one."""
    for k, s in enumerate(reference.samples_of(job, x, y)):
        for n, primitive in enumerate(primitives):
            if is_on_edge(primitive, s):
                yield f"sample {k} lies exactly on an edge of prim {n}"
        order = reference.covering(primitives, s)
        for (z, n), (nearer_z, nearer) in zip(order, order[1:]):
            if nearer_z - z <= 1:
                yield f"sample {k}: the depth keys of prim {n} and prim {nearer} are {z} and {nearer_z}"


@dataclass
class Scene:
    path: str
    words: list
    program: program.Program

    def __post_init__(self):
        try:
            self.job = reference.job_of(["render"] + self.words)
        except reference.Refusal as refusal:
            raise Fault(f"--words: {refusal.text}")
        self.primitives = primitives_of_file(self.path, self.job)

    def report(self, x, y):
        """The fragments of a pixel by abuf pick, and the close calls there."""
        with open(self.path, "rb") as file:
            told = self.program.output(["pick", f"{x},{y}", *self.words], file.read(),
                                       os.path.dirname(self.path) or None)
        calls = list(close_calls(self.job, self.primitives, x, y))
        calls = calls or ["no sample lies on an edge, and no two depth keys are within one"]
        return "".join(f"    {line}\n" for line in told.decode().splitlines() + calls)


# ---- the program


def tell(found, most, scene):
    a, b = found.a, found.b
    print(found.scaling or a.shape())
    print(f"pixels that differ: {found.differing()} of {len(found.pixels)}")
    print(f"values that differ: {found.values} of {3 * len(found.pixels)}")
    print(f"greatest difference: {found.greatest}, mean {found.mean:.6f}")
    for place in found.worst(most):
        x, y = place % a.width, place // a.width
        print(f"({x},{y}): {list(a.at(x, y))} and {list(b.at(x, y))}, difference {found.pixels[place]}")
        if scene:
            print(scene.report(x, y), end="")


def main():
    parser = report.words(__doc__)
    parser.add_argument("a", metavar="A")
    parser.add_argument("b", metavar="B")
    parser.add_argument("--allow", type=int, default=0, metavar="D")
    parser.add_argument("--picture", metavar="FILE")
    parser.add_argument("--worst", type=int, default=3, metavar="N")
    parser.add_argument("--scene", metavar="FILE")
    parser.add_argument("--words", default="", metavar="WORDS")
    program.add_option(parser)
    given = parser.parse_args()
    found = compare(pam.load(given.a), pam.load(given.b), given.allow)
    scene = None
    if given.scene:
        scene = Scene(given.scene, shlex.split(given.words), program.find(given.abuf))
        if (scene.job.width, scene.job.height) != (found.a.width, found.a.height):
            raise Fault("--words: the size isn't that of the images")
    tell(found, given.worst, scene)
    if given.picture:
        write_picture(given.picture, found.a, found.pixels)
    return report.WRONG if found.differing() else report.WELL


if __name__ == "__main__":
    report.end(main)
