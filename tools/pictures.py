#!/usr/bin/env python3
"""Draws the pictures of the examples, or checks that those in docs/pictures are what abuf draws.

    pictures.py [check]     compare each picture with what the program draws (the default)
    pictures.py draw        draw the pictures anew

    pictures.py check --abuf ./abuf

An example is a file examples/NAME.obj that has comment lines near its head, one for each of its
pictures:

    # abuf WORDS..                              the words that draw docs/pictures/NAME.png
    # abuf WORDS.. | pamenlarge N > OTHER.pam   those of docs/pictures/OTHER.png, N times enlarged

or a path examples/NAME.path of a sequence, which has near its head

    # abuf WORDS.. < SCENE.obj > OTHER.pam      those of the moving picture docs/pictures/OTHER.png

examples/draw.sh draws by the same words. The status is 0 where all is well, and 1 where a picture differs.
"""

import io
import os
import re
import shlex
from dataclasses import dataclass

import apng
from abuflib import pam, program, report
from abuflib.program import EXAMPLES, TOP
from abuflib.report import Fault

PICTURES = os.path.join(TOP, "docs", "pictures")


class Failed(Exception):
    """What is told of a picture that isn't as it should be."""


@dataclass
class Picture:
    name: str
    scene: str  # the name of the example
    words: str
    times: str = ""  # how many times it is enlarged; empty where it isn't
    is_moving: bool = False

    def path(self):
        return os.path.join(PICTURES, self.name + ".png")


LINE = re.compile(r"(?m)^# abuf (.*?)(?: \| pamenlarge ([0-9]+))?(?: > ([a-z0-9-]+)\.pam)?$")
MOVING_LINE = re.compile(r"(?m)^# abuf (.*?) < ([a-z0-9-]+)\.obj > ([a-z0-9-]+)\.pam$")
MILLISECONDS = 100  # for which each image of a moving picture is shown


def pictures():
    """The pictures of all examples."""
    found = []
    for file_name in sorted(os.listdir(EXAMPLES)):
        scene, ending = os.path.splitext(file_name)
        if ending not in (".obj", ".path"):
            continue
        with open(os.path.join(EXAMPLES, file_name), encoding="utf-8") as file:
            text = file.read()
        if ending == ".path":
            for words, scene, name in MOVING_LINE.findall(text):
                found.append(Picture(name, scene, words, is_moving=True))
        else:
            for words, times, name in LINE.findall(text):
                found.append(Picture(name or scene, scene, words, times))
    return found


def drawn(abuf, picture):
    """The images that the program draws, enlarged as the picture is."""
    with open(os.path.join(EXAMPLES, picture.scene + ".obj"), "rb") as file:
        data = abuf.output(shlex.split(picture.words), file.read(), EXAMPLES)
    images = list(pam.stream(io.BytesIO(data)))
    return [pam.enlarged(image, int(picture.times)) for image in images] if picture.times else images


def check(abuf, picture):
    """Failed where the picture isn't what the program draws."""
    if not os.path.exists(picture.path()):
        raise Failed("there is no picture; 'pictures.py draw' makes it")
    wanted, found = drawn(abuf, picture), images_of(picture)
    if len(found) != len(wanted):
        raise Failed(f"there are {len(found)} images, and {len(wanted)} are drawn")
    for number, (one, other) in enumerate(zip(found, wanted), 1):
        if one[:3] != other[:3]:
            raise Failed(f"image {number} is {one.shape()}, and {other.shape()} is drawn")
        if one != other:
            count = sum(one.at(i % one.width, i // one.width) != other.at(i % one.width, i // one.width)
                        for i in range(one.width * one.height))
            raise Failed(f"in image {number} {count} of {one.width * one.height} pixels differ")
    return "the same pixels" + (f" in {len(wanted)} images" if picture.is_moving else "")


def images_of(picture):
    """The images of the picture that is there."""
    with open(picture.path(), "rb") as file:
        png = file.read()
    return list(apng.images_of_apng(png)) if picture.is_moving else [pam.from_png(png, picture.name)]


def draw(abuf, picture):
    images = drawn(abuf, picture)
    png = apng.apng_of(images, MILLISECONDS) if picture.is_moving else pam.to_png(images[0])
    with open(picture.path(), "wb") as file:
        file.write(png)
    return f"{len(png)} bytes"


def main():
    parser = report.words(__doc__)
    parser.add_argument("task", nargs="?", choices=["check", "draw"], default="check")
    program.add_option(parser)
    given = parser.parse_args()
    abuf = program.find(given.abuf, program.launcher_tunables())
    work = draw if given.task == "draw" else check
    told = report.Report("pictures", is_quiet=False)
    for picture in pictures():
        try:
            told.add(picture.name, None, work(abuf, picture))
        except (Failed, Fault) as why:
            told.add(picture.name, str(why))
    return told.conclude()


if __name__ == "__main__":
    report.end(main)
