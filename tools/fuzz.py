#!/usr/bin/env python3
"""Runs abuf on random and broken words, scenes, libraries and paths, and looks at what it answers.

    fuzz.py [--cases N] [--seed S] [--seconds T] [--jobs J] [--abuf PATH]

    fuzz.py --cases 500 --seed 3 --jobs 2

Each case is run with 1, 3 and 64 threads, and some once more with little memory. It fails where

- a run doesn't end within the limit of time, or ends by a signal;
- words or lines are refused that reference.py takes, or get another refusal than its;
- the status or the text isn't one of the table of statuses in docs/FORMATS.md;
- on status 0 the image, report or summary isn't whole, or an image is missing of a sequence, or
  standard error isn't empty;
- on another status there is any output but the whole images of a sequence before the first that the
  pool doesn't hold, or something else than one line on standard error;
- the answers of the runs aren't the same; with little memory status 8 is well too, and else never.

That the images are right isn't looked at; compare.py does that.

A case that fails is kept in a folder of its own, in which 'sh again' runs it once more. The seed
and the number of a case decide it: --seed S --first N --cases 1 makes and runs it again. The status
is 1 where a case failed.
"""

import collections
import multiprocessing
import os
import random
import re
import sys
import tempfile
import time
from typing import NamedTuple

import fuzz_cases
import reference
from abuflib import pam, program, report
from abuflib.report import Fault

THREADS = (1, 3, 64)
USUAL_CASES = 2000
MOST_FAILED = 20  # of one job, which then ends

# The table of statuses, as expressions.
VALUES = "|".join([*reference.OPTIONS, *reference.RENDER_OPTIONS, "path", "at", "number"]).encode()
CAUSES = rb"bad number|no name|too many materials"
SCENE_CAUSES = CAUSES + rb"|unknown keyword|bad index|too few elements|too many elements" \
    rb"|too many triangles|too many points|too many libraries|unknown material"
LINE = rb"line [1-9][0-9]*: "
TEXTS = {
    2: rb"words not understood|bad value: (" + VALUES + rb")",
    3: rb"scene too long|" + LINE + rb"(" + SCENE_CAUSES + rb")",
    4: rb"library [1-9][0-9]* (missing|too long|" + LINE + rb"(" + CAUSES + rb"|no material))",
    5: rb"((image [1-9][0-9]*: )?pool|band [1-9][0-9]*) full: "
       rb"[1-9][0-9]* fragments, [1-9][0-9]* nodes",
    6: rb"read fault",
    7: rb"write fault",
    8: rb"no memory",
    9: rb"path (missing|too long|" + LINE + rb"(wrong count|bad turn|bad number|too many images))",
}


class Run(NamedTuple):
    title: str
    words: list
    memory: object  # at most so many KiB; None for all that there is



# ---- running


def runs_of(case, given):
    runs = [Run(f"{threads} threads", case.words_for(threads), None) for threads in THREADS]
    if case.memory is not None:
        memory = given.least_memory + case.memory
        runs.append(Run(f"{memory} KiB", case.words_for(THREADS[-1]), memory))
    return runs


def answer_of(run, given):
    """The answer of a run in the working folder, with the scene that is there."""
    with open("scene.obj", "rb") as scene:
        return given.program.run(run.words, scene, limit=given.limit, memory=run.memory)


def least_memory(abuf):
    """The fewest KiB, nearly, with which the program gets as far as to refuse that it has no words.
    With fewer the system may not even start it."""
    for memory in range(1024, 1048576, 32):
        if program.Program(("sh", "-c", f'ulimit -v {memory}; exec "$0"', abuf.path)).run([]).status == 2:
            return memory
    raise Fault(f"{abuf.path} without words doesn't end in status 2")


def write_case(case):
    """Writes the scene and the libraries into the working folder."""
    for name, data in [("scene.obj", case.scene), *case.libraries.items()]:
        with open(name, "wb") as file:
            file.write(data)


# ---- what must come


def expected(words, scene):
    """The job of the words, how many images it asks for, and the status and text of the refusal, as
    reference.py has them for all that comes before the drawing. Job and refusal may be None."""
    job, images = None, 1
    try:
        job = reference.job_of([word.decode() for word in words])
        if job.path is not None:
            images = len(reference.shots_of(job.path, reference.fetch_from_folder))
        if job.number is None:
            read_all(scene)
    except reference.Refusal as refusal:
        return job, images, (refusal.status, refusal.text)
    except reference.ReadFault:
        return job, images, (6, "read fault")
    except UnicodeDecodeError:
        return job, images, (2, "words not understood")
    return job, images, None


def read_all(scene):
    """Reads the scene and its libraries, or raises their refusal."""
    most = reference.MOST_BYTES
    if len(scene) > most:
        raise reference.Refusal(3, "scene too long")
    obj = reference.read_obj(scene)
    materials = {}
    for number, name in enumerate(obj.libraries, 1):
        data = reference.fetch_from_folder(name, most + 1)
        if data is None:
            raise reference.Refusal(4, f"library {number} missing")
        if len(data) > most:
            raise reference.Refusal(4, f"library {number} too long")
        reference.read_mtl(data, number, materials)
    reference.triangles_of(obj, materials)


def fault_of(answer, job, images, refusal):
    """What is wrong with an answer, or None."""
    status, out, err = answer
    if status is None:
        return "it didn't end in time"
    if status == 0:
        if refusal is not None:
            return f"status 0, where '{refusal[1]}' was to come"
        return "a text on status 0" if err else fault_of_output(out, job, images)
    if status not in TEXTS:
        return f"status {status}, which isn't in the table"
    if not re.fullmatch(rb"(" + TEXTS[status] + rb")\n", err):
        return f"status {status} with a text that isn't its own: {err[:200]!r}"
    if out and not err.startswith(b"image "):
        return f"status {status} with {len(out)} bytes of output"
    if refusal is not None and (status, err) != (refusal[0], refusal[1].encode() + b"\n"):
        return f"{err!r}, where '{refusal[1]}' was to come"
    if refusal is None and status != 5:
        return f"{err!r}, where the words and all lines are right"
    return fault_of_full(out, err, job, images) if status == 5 else None


def fault_of_full(out, err, job, images):
    """What is wrong with the refusal of a full pool, or None."""
    *part, fragments, nodes = map(int, re.findall(rb"[0-9]+", err))
    if nodes != job.nodes or fragments <= nodes or job.peel:
        return f"{err!r} with {job.nodes} nodes"
    if err.startswith(b"image ") != (job.path is not None):
        return f"{err!r} for another command"
    if job.path is not None:
        if part[0] > images:
            return f"{err!r} with {images} images"
        return fault_of_images(out, job, part[0] - 1)
    if not all(job.bands and number <= job.bands for number in part) or job.bands and not part:
        return f"{err!r} with {job.bands or 'no'} bands"
    return None


def fault_of_output(out, job, images):
    """What isn't whole in an image, a sequence, a report or a summary, or None."""
    if job.number is not None:
        return fault_of_summary(out, job)
    if job.at is not None:
        return fault_of_report(out, job)
    return fault_of_images(out, job, images)


def length_of_image(job):
    """The bytes of an image."""
    header = pam.header(job.width, job.height, job.maxval)
    return len(header) + job.width * job.height * 3 * (1 if job.maxval == 255 else 2)


def fault_of_images(out, job, images):
    """What isn't whole in so many images, joined, or None."""
    header = pam.header(job.width, job.height, job.maxval)
    length = length_of_image(job)
    if len(out) != images * length:
        return f"{len(out)} bytes, and not {images} images of {length}"
    for number in range(images):
        head = out[number * length:number * length + len(header)]
        if head != header:
            return f"image {number + 1} begins {head!r}"
    return None


def fault_of_summary(out, job):
    match = re.fullmatch(rb"triangles (\d+)\nfragments (\d+)\nlongest (\d+)\nsum (\d+)\n", out)
    if match is None:
        return f"a summary that isn't one: {out[:200]!r}"
    triangles, fragments, longest, _ = map(int, match.groups())
    pixels = job.width * job.height
    if triangles > 2 * job.number or fragments > job.nodes or \
            not longest <= min(triangles, fragments) or fragments > longest * pixels:
        return f"a summary whose numbers can't be: {out!r}"
    return None


def fault_of_report(out, job):
    """A report is whole where the lines of the samples have what the masks say, in order."""
    lines = out.split(b"\n")
    count = re.fullmatch(rb"fragments (\d+)", lines[0])
    if count is None or len(lines) != 2 + int(count.group(1)) + job.samples or lines[-1]:
        return f"a report of other lines than its own: {out[:200]!r}"
    masks = {}
    for line in lines[1:-1 - job.samples]:
        match = re.fullmatch(rb"prim (\d+) mask (\d+)", line)
        if match is None or not 0 < int(match.group(2)) < 2 ** job.samples:
            return f"the line {line[:200]!r} of a report"
        masks[int(match.group(1))] = int(match.group(2))
    if list(masks) != sorted(masks) or len(masks) != int(count.group(1)):
        return "a report whose primitives don't ascend"
    for k, line in enumerate(lines[-1 - job.samples:-1]):
        if not re.fullmatch(rb"sample %d( prim \d+ depth \d+)*" % k, line):
            return f"the line {line[:200]!r} of a report"
        numbers = [int(number) for number in re.findall(rb" (\d+)", line)[1:]]
        there = list(zip(numbers[1::2], numbers[0::2]))
        if there != sorted(there) or there and there[-1][0] > reference.NEAREST_KEY:
            return f"sample {k} of a report isn't in order"
        if sorted(n for _, n in there) != [n for n, mask in masks.items() if mask >> k & 1]:
            return f"sample {k} of a report isn't what the masks say"
    return None


def is_short_of_memory(answer, whole, job):
    """Whether a run told that there is no memory, and wrote nothing but images of a sequence."""
    status, out, err = answer
    if (status, err) != (8, b"no memory\n"):
        return False
    if job is None or job.path is None or not out:
        return not out
    length = length_of_image(job)
    is_last = whole.status == 0 and len(out) == len(whole.out)
    return whole.out.startswith(out) and len(out) % length == 0 and not is_last


# ---- cases


def fault_of_case(case, given, statuses):
    """Runs a case and tells what is wrong, or None. Its status is counted."""
    runs = runs_of(case, given)
    answers = [answer_of(run, given) for run in runs]
    statuses[answers[0].status] += 1
    job, images, refusal = expected(runs[0].words, case.scene)
    for run, answer in zip(runs, answers):
        if run.memory is not None and is_short_of_memory(answer, answers[0], job):
            continue
        fault = fault_of(answer, job, images, refusal)
        if fault is not None:
            return f"{fault}, with {run.title}"
        if answer != answers[0]:
            return f"with {run.title} another answer than with {runs[0].title}"
    return None


def quoted(word):
    return b"'" + word.replace(b"'", b"'\\''") + b"'"


def keep(case, number, given):
    """The folder with all of a case that failed, and with the script that runs it again."""
    folder = os.path.join(given.keep, f"{given.seed}-{number}")
    os.makedirs(folder, exist_ok=True)
    before = os.getcwd()
    os.chdir(folder)
    write_case(case)
    with open("again", "wb") as file:
        file.write(b'cd "$(dirname "$0")"\nexport GLIBC_TUNABLES=\n')
        for place, run in enumerate(runs_of(case, given)):
            words = b" ".join(map(quoted, [os.fsencode(given.program.path), *run.words]))
            limit = b"ulimit -v %d; " % run.memory if run.memory is not None else b""
            file.write(b"(%b%b < scene.obj > out.%d)\n" % (limit, words, place))
            file.write(b'echo "status $?"; cksum < out.%d\n' % place)
    os.chdir(before)
    return folder


def work(given, first, deadline):
    """Runs every case of a job from the first one on, and counts the statuses and what failed."""
    statuses, failed = collections.Counter(), 0
    end = given.first + given.cases if given.cases is not None else sys.maxsize
    with tempfile.TemporaryDirectory() as folder:
        os.chdir(folder)
        for number in range(first, end, given.jobs):
            if time.monotonic() > deadline or failed == MOST_FAILED:
                break
            case = fuzz_cases.make(given.seed, number)
            write_case(case)
            fault = fault_of_case(case, given, statuses)
            for name in case.libraries:
                os.unlink(name)
            if fault is not None:
                failed += 1
                print(f"case {number} of seed {given.seed}, {case.kind}: {fault}\n"
                      f"    again: sh {keep(case, number, given)}/again", flush=True)
        os.chdir("/")
    return statuses, failed


def main():
    parser = report.words(__doc__)
    parser.add_argument("--cases", type=int, metavar="N",
                        help=f"how many cases ({USUAL_CASES}, or as --seconds says)")
    parser.add_argument("--seconds", type=float, metavar="T", help="no case begins after this time")
    parser.add_argument("--seed", type=int, default=random.SystemRandom().randrange(10 ** 6),
                        metavar="S", help="decides the cases (another one each time)")
    parser.add_argument("--first", type=int, default=0, metavar="N", help="the first case (0)")
    parser.add_argument("--jobs", type=int, default=1, metavar="J", help="cases run at a time (1)")
    parser.add_argument("--limit", type=float, default=60, metavar="T",
                        help="the most seconds that a run may take (60)")
    parser.add_argument("--keep", default=os.path.join(tempfile.gettempdir(), "abuf-fuzz"),
                        metavar="FOLDER", help="where cases that fail are kept")
    program.add_option(parser)
    given = parser.parse_args()
    given.program, given.keep = program.find(given.abuf), os.path.abspath(given.keep)
    if given.cases is None and given.seconds is None:
        given.cases = USUAL_CASES
    given.least_memory = least_memory(given.program)
    print(f"fuzz: seed {given.seed}", flush=True)
    start = time.monotonic()
    deadline = start + (given.seconds if given.seconds is not None else float("inf"))
    with multiprocessing.Pool(given.jobs) as pool:
        firsts = range(given.first, given.first + given.jobs)
        parts = pool.starmap(work, [(given, first, deadline) for first in firsts])
    statuses = sum((part for part, _ in parts), collections.Counter())
    failed = sum(count for _, count in parts)
    shares = "".join(f", {statuses[key]} of status {key}" for key in sorted(statuses, key=str))
    seconds = time.monotonic() - start
    print(f"fuzz: {sum(statuses.values())} cases in {seconds:.0f} s{shares}; {failed} failed")
    return report.WRONG if failed else report.WELL


if __name__ == "__main__":
    report.end(main)
