#!/usr/bin/env python3
"""Runs abuf_watch on the lantern again and again, and tells in how many runs the watcher saw the frame grow.

    watch.py [--watch PATH] [--runs N] [--threads N ..]

    watch.py --runs 10 --threads 2 4

The lantern is drawn at 320x240 with 8 samples on 2, 4 and 16 threads, a hundred times each. One of the threads looks at 64 pixels
while the others draw. What the program writes to standard output must be the same in all runs; where the program abuf is built, the
sum of the image must be that of the image which abuf draws with one sample. For each number of threads this tells in how many runs
the count of entries grew between the first look and the last, in how many a look met a node that wasn't linked yet, and in how many
one had too little room. These numbers change from run to run, and where they are all 0 the watcher has seen nothing: that is told,
and the status is 1. The program is that of --watch, or crates/abuf_watch/out/abuf_watch, which `rt run` in crates/abuf_watch builds.
"""

import os
import re
from collections.abc import Sequence
from typing import NamedTuple

from abuflib import pam, program, report
from abuflib.program import EXAMPLES, TOP, Program
from abuflib.report import Fault, Report

BUILT = os.path.join(TOP, "crates", "abuf_watch", "out", "abuf_watch")
LANTERN = "--turn=8,1,0,0 --move=0,0.36,-8.6 --focal 2.7".split()
WORDS = ["render", "--size", "320x240", "--samples", "8", *LANTERN]
PLAIN = ["render", "--size", "320x240", *LANTERN]
THREADS = (2, 4, 16)
TOLD = re.compile(r"entries (\d+) to (\d+)\nlooks: whole (\d+) unlinked (\d+) more (\d+)\n")


class Looks(NamedTuple):
    """What a run tells of its looks."""

    first: int
    last: int
    whole: int
    unlinked: int
    more: int

    def all(self) -> int:
        return self.whole + self.unlinked + self.more


class Tally(NamedTuple):
    """In how many runs of all something was seen, and how many looks there were in all of them."""

    runs: int
    grown: int
    unlinked: int
    more: int
    looks: int

    def text(self) -> str:
        return (f"of {self.runs} runs the count grew in {self.grown}, a look met an unlinked node in {self.unlinked} and had too "
                f"little room in {self.more}; {self.looks} looks")


def looks_of(text: bytes) -> Looks:
    """What the text on standard error tells, or a Fault."""
    found = TOLD.fullmatch(text.decode(errors="replace"))
    if found is None:
        raise Fault(f"abuf_watch tells {text!r}")
    return Looks(*map(int, found.groups()))


def fault_of(looks: Looks) -> str | None:
    """What can't be in one run."""
    return f"the count falls from {looks.first} to {looks.last}" if looks.first > looks.last else None


def tally(all_looks: Sequence[Looks]) -> Tally:
    return Tally(
        len(all_looks),
        sum(looks.first < looks.last for looks in all_looks),
        sum(looks.unlinked > 0 for looks in all_looks),
        sum(looks.more > 0 for looks in all_looks),
        sum(looks.all() for looks in all_looks),
    )


def find(given: str | None) -> Program:
    path = os.path.abspath(given or BUILT)
    if not os.access(path, os.X_OK) or os.path.isdir(path):
        raise Fault(f"there is no program {os.path.relpath(path)}: `rt run` in crates/abuf_watch builds it, and --watch names another")
    return Program((path,))


def scene() -> bytes:
    with open(os.path.join(EXAMPLES, "lantern.obj"), "rb") as file:
        return file.read()


def watch(found: Program, words: Sequence[str], given: bytes) -> tuple[bytes, Looks]:
    """What one run reports, and what it tells of its looks."""
    answer = found.run(words, given, EXAMPLES)
    if answer.status != 0:
        raise Fault(f"abuf_watch: {answer.text()}")
    return answer.out, looks_of(answer.err)


def compare_sum(told: Report, found: Program, given: bytes) -> None:
    """With one sample the sums of all pixels add up to the values of the image of 16 bits that abuf draws."""
    try:
        drawn = program.find().output([*PLAIN, "--maxval", "65535"], given, EXAMPLES)
    except Fault as why:
        told.line(f"the image of abuf is skipped: {why}")
        return
    image = pam.read(drawn)
    wanted = sum(pam.numbers(image.values, image.maxval))
    out, _ = watch(found, PLAIN, given)
    is_same = out.endswith(b"sum %d\n" % wanted)
    told.add("the sum of the image of abuf", None if is_same else f"it is {wanted}, and not that of {out[-40:]!r}")


def main() -> int:
    parser = report.words(__doc__)
    parser.add_argument("--watch", metavar="PATH", help="the program")
    parser.add_argument("--runs", type=int, default=100, metavar="N", help="so many for each number of threads (100)")
    parser.add_argument("--threads", type=int, nargs="+", default=THREADS, metavar="N", help="the numbers of threads (2 4 16)")
    given = parser.parse_args()
    found, lantern = find(given.watch), scene()
    told = Report("comparisons", is_quiet=False)
    wanted = None
    seen = 0
    for threads in given.threads:
        all_looks, fault = [], None
        for number in range(given.runs):
            out, looks = watch(found, [*WORDS, "--threads", str(threads)], lantern)
            wanted = wanted or out
            fault = fault or fault_of(looks) or (None if out == wanted else f"run {number} reports something else")
            all_looks.append(looks)
            told.progress(number + 1, given.runs)
        counted = tally(all_looks)
        seen += counted.grown + counted.unlinked
        told.add(f"{threads} threads", fault, counted.text())
    compare_sum(told, found, lantern)
    told.add("the frame was seen to grow", None if seen else "no run saw it")
    return told.conclude()


if __name__ == "__main__":
    report.end(main)
