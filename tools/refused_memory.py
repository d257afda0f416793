#!/usr/bin/env python3
"""Refuses each allocation of abuf in turn, and lets each of its reads and writes fail or be short.

    refused_memory.py [--abuf PATH] [CRATE..]

    refused_memory.py abuf_reading_rows

A run refuses one call, the first, the second and so on, until a run has no such call any more. A
run of the program ends well where it writes nothing and ends in status 8, or where it gives the
answer that it gives when nothing is refused, by reference.py. Where a read or a write fails,
statuses 6 and 7 take the place of 8, with at most a beginning of the output or of the text; where
one is short, the answer alone is right. In a sequence whole images may be written before status 8.

With CRATE.. the tests of these crates whose names have 'refused_memory' are run in the same way.
Such a test may end for want of memory. Else it asserts that its calls gave the right answer or told
that there is no memory, and left alone what they then must leave alone. 'rt test' in the crate's
folder builds them.

A table tells how the runs ended; each run that didn't end well is told above its line. refusals.c,
which refuses the calls, is built with the compiler CC, or cc. The status is 1 where a run didn't
end well, and 2 where something is missing.
"""

import collections
import os
import re
import shlex
import shutil
import struct
import subprocess
import tempfile
from dataclasses import dataclass, field

import reference
from abuflib import program, report
from abuflib.program import EXAMPLES, TOOLS, TOP
from abuflib.report import Fault

NO_MEMORY = re.compile(rb"error: (NoMemory|Memory|Alloc[A-Za-z]*)\b")  # a test's failure
CRATES = os.path.join(TOP, "crates")
IN_TESTS = "memory refused to a test"
SECONDS = 60
MOST_CALLS = 5000

# How runs end, and the heading of the table's column.
ENDS = ["status 8", "status 6", "status 7", "cut text", "answer", None]

PATH = b"1 0 0 0 0 0 -40\n1 0 0 0 0 0 -4\n1 0 0 0 0 0 -40\n"  # the second shot is full of it
SQUARE = b"v -4 4 0\nv 4 4 0\nv 4 -4 0\nv -4 -4 0\nf 1 2 4\nf 2 3 4\n"
KINDS = {"memory": "memory refused", "io": "reads and writes fail", "short": "and are short"}


@dataclass
class Case:
    """A command and what it reads."""
    words: str
    shows: str
    scene: bytes = b""
    libraries: dict = field(default_factory=dict)
    image: int | None = None  # the bytes of each image of a sequence


def example(name):
    with open(os.path.join(EXAMPLES, name), "rb") as file:
        return file.read()


def cases():
    cube = example("cube.obj"), {"cube.mtl": example("cube.mtl")}
    for threads in ("1", "4"):
        few = f"--nodes 16 --threads {threads}"
        yield Case(f"render --size 4x4 {few}", "a square", SQUARE)
        yield Case(f"pick 0,0 --size 4x4 {few}", "a square", SQUARE)
        yield Case(f"render --size 4x4 {few}", "a cube", *cube)
        yield Case(f"demo 1 --size 1x1 --move 0,0.3,-4 {few}", "")
        yield Case(f"render --size 4x4 --bands 3 {few}", "a square in bands", SQUARE)
        yield Case(f"render --size 4x4 --peel {few}", "a square in layers", SQUARE)
        yield Case(f"sequence p --size 4x4 {few}", "three images of a square", SQUARE, {"p": PATH}, 107)
    yield Case("demo 8192 --size 8x6 --threads 4", "")  # so many triangles are put in order while the frame is started
    yield Case("render --size 4x4 --nodes 15", "a square, for which the pool is full", SQUARE)
    yield Case("render --size 4x4 --bands 2 --nodes 7", "a square, whose first band is full", SQUARE)
    yield Case("sequence p --size 4x4 --nodes 15", "three images, for whose second the pool is full",
               SQUARE, {"p": PATH}, 107)
    yield Case("sequence p --size 4x4 --nodes 16", "a faulty path", SQUARE, {"p": PATH + b"1\n"}, 107)
    yield Case("sequence p --size 4x4 --nodes 16", "no images of a cube", cube[0],
               {"p": b"# none\n", **cube[1]}, 107)
    yield Case("render --size 4x4 --nodes 16", "a faulty library", b"mtllib a.mtl\n",
               {"a.mtl": b"newmtl red\nd 1\nnewmtl blue\nKd\n"})


# ---- running


class Refuser:
    """Runs programs with one call refused, and counts the calls."""

    def __init__(self, folder):
        self.library = os.path.join(folder, "refusals.so")
        self.count = os.path.join(folder, "count")
        compiler = shlex.split(os.environ.get("CC", "cc"))
        if shutil.which(compiler[0]) is None:
            raise Fault(f"there is no compiler {compiler[0]}: install Debian's package gcc, or set CC")
        program.run_tool([*compiler, "-shared", "-fPIC", "-O1", "-o", self.library, os.path.join(TOOLS, "refusals.c")])

    def run(self, words, kind, call, folder):
        """The status, output and text in the folder, where the scene is, and how many calls of the
        kind there were."""
        with open(self.count, "wb") as file:
            file.write(bytes(8))
        preloaded = program.Program((words[0],), variables={
            "LD_PRELOAD": self.library, "REFUSED_KIND": kind, "REFUSED_CALL": str(call), "REFUSED_COUNT": self.count})
        with open(os.path.join(folder, "scene.obj"), "rb") as scene:
            answer = preloaded.run(words[1:], scene, folder, SECONDS)
        if answer.status is None:
            return answer, call
        with open(self.count, "rb") as file:
            count, = struct.unpack("=Q", file.read())
        return answer, count

    def each(self, words, kind, folder):
        """The answers with the first, the second and so on of the calls refused."""
        for call in range(1, MOST_CALLS):
            answer, count = self.run(words, kind, call, folder)
            if count < call:
                return
            yield call, answer
        raise Fault(f"{words} has more than {MOST_CALLS} calls")


def may_be_written(out, own, image):
    """Whether a run whose memory runs out may have written this: nothing, or images of a sequence,
    but not all of them."""
    if image is None or not out:
        return not out
    return own[1].startswith(out) and len(out) % image == 0 and (own[0] != 0 or out != own[1])


def ended(answer, own, kind, image):
    """How a run of the program ended, or None, where it didn't end well."""
    status, out, err = answer
    if answer == own:
        return "answer"
    if kind == "memory" and status == 8 and b"no memory\n".startswith(err):
        return "status 8" if may_be_written(out, own, image) else None
    if kind == "io" and (status, out, err) == (6, b"", b"read fault\n"):
        return "status 6"
    if kind == "io" and own[1] and (status, err) == (7, b"write fault\n"):
        return "status 7" if own[1].startswith(out) else None
    if kind == "io" and (status, out) == own[:2] and own[2].startswith(err):
        return "cut text"
    return None


def ended_test(answer):
    """How a run of a test ended."""
    status, _, err = answer
    if status == 0:
        return "answer"
    return "status 8" if status == 101 and NO_MEMORY.match(err) else None


# ---- what is run


def write_case(case, folder):
    for name, data in [("scene.obj", case.scene), *case.libraries.items()]:
        with open(os.path.join(folder, name), "wb") as file:
            file.write(data)


def run_case(refuser, path, case):
    """For each kind of call how the runs ended."""
    words = case.words.split()
    own = reference.answer(words, lambda most: case.scene[:most],
                           lambda name, most: case.libraries.get(name.decode()))
    with tempfile.TemporaryDirectory() as folder:
        write_case(case, folder)
        for kind, title in KINDS.items():
            ends = collections.Counter()
            for call, answer in refuser.each([path, *words], kind, folder):
                end = ended(answer, own, kind, case.image)
                ends[end] += 1
                if end is None:
                    print(f"{case.words}, {title}, call {call}: {answer}", flush=True)
            yield title, ends


def run_tests(refuser, crate):
    """For each test of the crate how its runs ended."""
    tests = os.path.join(CRATES, crate, "out", f"{crate}_tests")
    if not os.access(tests, os.X_OK):
        raise Fault(f"there is no {tests}; 'rt test' in crates/{crate} builds it")
    listed = subprocess.run([tests, "--list"], capture_output=True, text=True, check=True).stdout
    for name in re.findall(r"(?m)^(\S*refused_memory\S*): test$", listed):
        ends = collections.Counter()
        with tempfile.TemporaryDirectory() as folder:
            write_case(Case(name, ""), folder)
            for call, answer in refuser.each([tests, name], "memory", folder):
                end = ended_test(answer)
                ends[end] += 1
                if end is None:
                    print(f"{crate}, {name}, call {call}: {answer}", flush=True)
        yield name, ends


def tell(title, ends):
    """A line of the table: how many runs there were, and how many of them ended how."""
    counts = "".join(f"{ends[end] or '':>10}" for end in ENDS)
    print(f"  {title:<25}{sum(ends.values()):>6}{counts}", flush=True)


def main():
    parser = report.words(__doc__)
    program.add_option(parser)
    parser.add_argument("crates", nargs="*", metavar="CRATE", help="crates with tests of this")
    given = parser.parse_args()
    path = program.find(given.abuf).path
    totals = collections.defaultdict(collections.Counter)
    print(f"{'':<27}{'runs':>6}" + "".join(f"{end or 'WRONG':>10}" for end in ENDS))
    with tempfile.TemporaryDirectory() as folder:
        refuser = Refuser(folder)
        for case in cases():
            print(", ".join(filter(None, (case.words, case.shows))))
            for title, ends in run_case(refuser, path, case):
                tell(title, ends)
                totals[title] += ends
        for crate in given.crates:
            for name, ends in run_tests(refuser, crate):
                print(f"{crate}, {name}")
                tell(IN_TESTS, ends)
                totals[IN_TESTS] += ends
    print("all")
    for title, ends in totals.items():
        tell(title, ends)
    return report.WRONG if any(ends[None] for ends in totals.values()) else report.WELL


if __name__ == "__main__":
    report.end(main)
