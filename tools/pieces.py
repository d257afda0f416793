#!/usr/bin/env python3
"""Shows that a path in pieces gives the bytes of the whole, also where pieces fail.

    pieces.py [--abuf PATH]

    pieces.py --abuf crates/abuf/out/abuf

The lantern's path is drawn whole, and in pieces of 1, 5 and 36 images by the scripts of examples/many,
four pieces at a time on several numbers of threads. Then it is drawn in pieces of 5 images with a
program that fails in three of them at first: two are killed within an image, and one has no memory.
With three tries they are all there at the end. With one try they are missing, and no half of a piece
is there; the same command draws them the second time. A piece that is cut short is named and drawn
again. A pool that one image fills ends its piece with status 5 at the first try.

The status is 0 where all is as it must be, and 1 otherwise. tools/reference.py isn't needed: what is
compared is the program's own.
"""

import os
import shutil
import subprocess
import tempfile
from concurrent.futures import ThreadPoolExecutor

from abuflib import program, report
from abuflib.program import EXAMPLES

MANY = os.path.join(EXAMPLES, "many")
WORDS = ["--size", "80x60", "--samples", "4", "--focal", "2.7"]

# Fails for three pieces, the first time: writes half of an image and is killed, or has no memory.
FAILING = """#!/bin/sh
case $2 in
*0002.path | *0005.path)
    if [ ! -e "$2.failed" ]; then
        touch "$2.failed"
        "$PROGRAM" "$@" 2> "$2.failed" | head -c 20000
        kill -9 $$
    fi ;;
*0007.path)
    if [ ! -e "$2.failed" ]; then
        touch "$2.failed"
        echo "no memory" >&2
        exit 8
    fi ;;
esac
exec "$PROGRAM" "$@"
"""


class Shower:
    """The folder with the scene, the program, and whether everything was as it must be."""

    def __init__(self, path, folder):
        self.folder = folder
        self.program = path
        self.report = report.Report(is_quiet=False)
        for name in ("lantern.obj", "lantern.mtl", "lantern.path"):
            shutil.copy(os.path.join(EXAMPLES, name), folder)
        self.failing = os.path.join(folder, "failing")
        with open(self.failing, "w") as file:
            file.write(FAILING)
        os.chmod(self.failing, 0o755)
        self.whole = self.run(path, "sequence", "lantern.path", *WORDS, scene=True).stdout

    def tell(self, title, is_right, more=""):
        self.report.add(title, None if is_right else more or "not as it must be", more)

    def run(self, *words, scene=False, **variables):
        variables = program.environment(**{"PROGRAM": self.program, "ABUF": self.program, **variables})
        with open(os.path.join(self.folder, "lantern.obj") if scene else os.devnull, "rb") as given:
            return subprocess.run(words, stdin=given, capture_output=True, cwd=self.folder,
                                  env=variables)

    def cut(self, images):
        shutil.rmtree(os.path.join(self.folder, "pieces"), ignore_errors=True)
        self.script("cut.py", "lantern.path", "pieces", "--images", str(images))

    def script(self, name, *words, **variables):
        return self.run(os.path.join(MANY, name), *words, **variables)

    def files(self, ending):
        folder = os.path.join(self.folder, "pieces")
        return sorted(name for name in os.listdir(folder) if name.endswith(ending))

    def draw(self, *more, **variables):
        """The statuses of the pieces, drawn four at a time."""
        def one(numbered):
            number, name = numbered
            threads = ("1", "3", "7")[number % 3]
            return self.script("draw_piece.sh", f"pieces/{name}", "lantern.obj", *WORDS, *more,
                               "--threads", threads, **variables)

        with ThreadPoolExecutor(4) as pool:
            return [done.returncode for done in pool.map(one, enumerate(self.files(".path")))]

    def is_whole(self):
        joined = self.script("join.py", "pieces")
        return (joined.returncode, joined.stdout) == (0, self.whole)


def show(shower):
    shower.tell("the whole", len(shower.whole) > 0, f"{len(shower.whole)} bytes")
    for images in (1, 5, 36):
        shower.cut(images)
        shower.tell(f"pieces of {images}", set(shower.draw()) == {0} and shower.is_whole())
    shower.cut(5)
    statuses = shower.draw(ABUF=shower.failing)
    shower.tell("three tries", set(statuses) == {0} and shower.is_whole())
    shower.cut(5)
    statuses = shower.draw(ABUF=shower.failing, TRIES="1")
    shower.tell("one try", statuses == [0, 137, 0, 0, 137, 0, 8, 0], f"{statuses}")
    missing = shower.script("join.py", "--missing", "pieces")
    shower.tell("what is missing", (missing.returncode, missing.stdout) == (1, b"2,5,7\n"))
    left = [name for name in os.listdir(os.path.join(shower.folder, "pieces")) if ".pam." in name]
    shower.tell("no half of a piece", len(shower.files(".pam")) == 5 and not left)
    joined = shower.script("join.py", "pieces")
    shower.tell("no part is joined", (joined.returncode, joined.stdout) == (1, b""))
    shower.tell("and again", set(shower.draw(ABUF=shower.failing)) == {0} and shower.is_whole())
    with open(os.path.join(shower.folder, "pieces", "0003.pam"), "r+b") as file:
        file.truncate(30000)
    missing = shower.script("join.py", "--missing", "pieces")
    shower.tell("a piece that is cut short", (missing.returncode, missing.stdout) == (1, b"3\n"))
    shower.tell("and again", set(shower.draw()) == {0} and shower.is_whole())
    shower.cut(36)
    statuses = shower.draw("--nodes", "10")
    shower.tell("a full pool", statuses == [5] and not shower.files(".pam"))


def main():
    parser = report.words(__doc__)
    program.add_option(parser)
    path = program.find(parser.parse_args().abuf).path
    with tempfile.TemporaryDirectory() as folder:
        shower = Shower(path, folder)
        show(shower)
    return shower.report.conclude()


if __name__ == "__main__":
    report.end(main)
