#!/usr/bin/env python3
"""Cuts a path into pieces, which are drawn by themselves.

    cut.py PATH FOLDER [--images N]     N images a piece, the last one may have fewer (8)

    cut.py lantern.path pieces --images 5

The pieces are FOLDER/0001.path, FOLDER/0002.path and so on; the folder is made, and must be new. A
piece has the lines of its images as they are. Blank lines stand for the lines before them, so that
a line has the same number in its piece as in the path, and 'path line N' tells it. How many pieces
there are is printed. A path may be longer than the 4096 images that abuf takes at once. The status is
2 where something can't be read or written. The script stands alone, so that it can be copied.
"""

import argparse
import os
import re
import sys

MOST_PIECES = 9999
BLANK = re.compile(rb"[ \t\r]*(#.*)?", re.DOTALL)


def images_of(path):
    """The lines of the images, each with its number from 0."""
    return [(number, line) for number, line in enumerate(path.split(b"\n"))
            if not BLANK.fullmatch(line)]


def pieces_of(path, count):
    """The bytes of each piece."""
    images = images_of(path)
    for start in range(0, len(images), count):
        lines = [b""] * images[start][0]
        for number, line in images[start:start + count]:
            lines += [b""] * (number - len(lines)) + [line]
        yield b"".join(line + b"\n" for line in lines)


def main():
    parser = argparse.ArgumentParser(description=__doc__,
                                     formatter_class=argparse.RawDescriptionHelpFormatter)
    parser.add_argument("path", metavar="PATH")
    parser.add_argument("folder", metavar="FOLDER")
    parser.add_argument("--images", type=int, default=8, metavar="N", help="images a piece (8)")
    given = parser.parse_args()
    if not 1 <= given.images <= 4096:
        parser.error("a piece has 1 to 4096 images")
    try:
        with open(given.path, "rb") as file:
            pieces = list(pieces_of(file.read(), given.images))
        if len(pieces) > MOST_PIECES:
            parser.error(f"{len(pieces)} pieces are too many; let --images be greater")
        os.mkdir(given.folder)
        for number, piece in enumerate(pieces, 1):
            with open(os.path.join(given.folder, f"{number:04}.path"), "wb") as file:
                file.write(piece)
    except OSError as why:
        print(f"cut.py: {why}", file=sys.stderr)
        sys.exit(2)
    print(len(pieces))


if __name__ == "__main__":
    main()
