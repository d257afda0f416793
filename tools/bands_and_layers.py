#!/usr/bin/env python3
"""Shows that bands and layers give the bytes that one frame gives, and that bands draw what no pool holds.

    bands_and_layers.py [--large] [--abuf PATH]

    bands_and_layers.py --large

The demonstration scene of 500 triangles is drawn at 160x120 with 1 and with 8 samples, on 1, 7 and 64 threads: in one frame,
in 1, 7 and 120 bands, and layer by layer. With --large, that of 20,000 triangles is drawn at 640x480, whose 39 million
fragments fill the largest pool many times over: one frame must refuse it, and bands must draw it, in two numbers of bands,
with the same bytes. Each image is told by its hash. The status is 0 where all are as they must be, and 1 otherwise.
"""

import hashlib
import os
import tempfile

import reference
from abuflib import program, report

SMALL = "render --size 160x120 --nodes 4194304"
LARGE = "render --size 640x480 --nodes 8388608"


class Shower:
    """The folder with the scene's library, the program, and what was as it must be."""

    def __init__(self, found, folder):
        self.program = found
        self.folder = folder
        self.report = report.Report(is_quiet=False)

    def take(self, number):
        """Puts the demonstration scene of so many triangles in its place."""
        self.scene, library = reference.demonstration(number)
        with open(os.path.join(self.folder, "demo.mtl"), "wb") as file:
            file.write(library)

    def run(self, words):
        return self.program.run(words.split(), self.scene, self.folder)

    def image(self, words, wanted=None):
        """The hash of the image that the words draw, which must be the one that is wanted."""
        answer = self.run(words)
        found = hashlib.sha256(answer.out).hexdigest()
        fault = f"status {answer.status}, {answer.text()}" if answer.status != 0 else \
            "another image" if wanted not in (None, found) else None
        self.report.add(words, fault, found[:16])
        return found

    def refused(self, words, text):
        """The words must be refused by a full pool with a text that begins so."""
        status, out, err = answer = self.run(words)
        is_right = (status, out) == (5, b"") and err.startswith(text)
        self.report.add(words, None if is_right else f"status {status}, {answer.text()}", answer.text())


def show_small(shower):
    shower.take(500)
    for samples in (1, 8):
        words = f"{SMALL} --samples {samples}"
        wanted = shower.image(f"{words} --threads 1")
        for threads in (1, 7, 64):
            for stored in ("", " --bands 1", " --bands 7", " --bands 120", " --peel"):
                shower.image(f"{words} --threads {threads}{stored}", wanted)


def show_large(shower):
    shower.take(20000)
    shower.refused(LARGE, b"pool full: ")
    shower.refused(f"{LARGE} --bands 2", b"band 1 full: ")
    wanted = shower.image(f"{LARGE} --bands 32")
    shower.image(f"{LARGE} --bands 60 --threads 7", wanted)


def main():
    parser = report.words(__doc__)
    parser.add_argument("--large", action="store_true", help="draw the scene of 39 million fragments too")
    program.add_option(parser)
    given = parser.parse_args()
    with tempfile.TemporaryDirectory() as folder:
        shower = Shower(program.find(given.abuf), folder)
        show_small(shower)
        if given.large:
            show_large(shower)
    return shower.report.conclude()


if __name__ == "__main__":
    report.end(main)
