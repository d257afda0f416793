#!/usr/bin/env python3
"""Joins the images of all pieces of a path in their order, once each piece is drawn whole.

    join.py FOLDER > images.pam     the stream that abuf sequence writes of the whole path
    join.py --missing FOLDER        prints the numbers of the pieces that aren't whole, as 2,5,6

    join.py pieces > lantern-turning.pam

A piece is whole where its PIECE.pam has as many images as PIECE.path has lines of them, each with the
header of the first image of all. Where a piece isn't, its name is told, nothing is written, and the
status is 1; it is 2 where something can't be read. With --missing a PIECE.pam that isn't whole is
removed, so that the piece is drawn again. The script stands alone beside cut.py, so that both can be
copied.
"""

import argparse
import os
import re
import shutil
import sys

from cut import images_of

HEADER = re.compile(rb"P7\nWIDTH (\d+)\nHEIGHT (\d+)\nDEPTH 3\nMAXVAL (255|65535)\n"
                    rb"TUPLTYPE RGB\nENDHDR\n")
LONGEST_HEADER = 80


class Broken(Exception):
    """What is wrong with the images of a piece."""


def header_of(path):
    """The header of the first image of a file, and the length of each image with it."""
    with open(path, "rb") as file:
        found = HEADER.match(file.read(LONGEST_HEADER))
    if found is None:
        raise Broken("doesn't begin with an image")
    width, height, maxval = map(int, found.groups())
    return found.group(), found.end() + width * height * (3 if maxval == 255 else 6)


def check(images, count, header):
    """The header of the images, or Broken where they aren't so many with this header."""
    if not os.path.exists(images):
        raise Broken("isn't there")
    found, length = header_of(images)
    if header not in (None, found):
        raise Broken("has images of another size or another MAXVAL than the first piece")
    if os.path.getsize(images) != count * length:
        raise Broken(f"has {os.path.getsize(images)} bytes, and not {count} images of {length}")
    with open(images, "rb") as file:
        for number in range(count):
            file.seek(number * length)
            if file.read(len(found)) != found:
                raise Broken(f"has no header at its image {number + 1}")
    return found


def main():
    parser = argparse.ArgumentParser(description=__doc__,
                                     formatter_class=argparse.RawDescriptionHelpFormatter)
    parser.add_argument("folder", metavar="FOLDER")
    parser.add_argument("--missing", action="store_true", help="print which pieces aren't whole")
    given = parser.parse_args()
    header, missing, whole = None, [], []
    try:
        for name in sorted(os.listdir(given.folder)):
            piece, ending = os.path.splitext(os.path.join(given.folder, name))
            if ending != ".path":
                continue
            with open(piece + ".path", "rb") as file:
                count = len(images_of(file.read()))
            try:
                header = check(piece + ".pam", count, header)
                whole.append(piece + ".pam")
            except Broken as why:
                missing.append(int(os.path.basename(piece)))
                print(f"{piece}.pam {why}", file=sys.stderr)
                if given.missing and os.path.exists(piece + ".pam"):
                    os.unlink(piece + ".pam")
        if given.missing:
            print(",".join(map(str, missing)))
        elif not missing:
            for piece in whole:
                with open(piece, "rb") as file:
                    shutil.copyfileobj(file, sys.stdout.buffer)
    except OSError as why:
        print(f"join.py: {why}", file=sys.stderr)
        sys.exit(2)
    sys.exit(1 if missing else 0)


if __name__ == "__main__":
    main()
