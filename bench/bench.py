#!/usr/bin/env python3
"""Times abuf on scenes of its own: the time, the fragments a second and the peak memory.

    bench.py [OPTIONS]              draws each scene on 1 and on 4 threads; with --shares, tells where the time goes
    bench.py --growth [OPTIONS]     doubles the work step by step, and prints the time for a unit of it
    bench.py --reading [OPTIONS]    reads several kinds of text and draws nothing
    bench.py --stored [OPTIONS]     draws scenes in one frame, in bands, and layer by layer
    bench.py --at-once [OPTIONS]    tells how much faster threads can be here: runs that share nothing, several at once

The scenes are written into a new folder, and of several rounds the best counts. Beside another program, which is given the same
words and the same scene on standard input, both run in turn, and the ratio of their times is printed. One of the scenes is too
large for the pool, and has to be refused. README.md here tells what the scenes are and how the figures are read; growth.py draws
the growth.

    bench.py --only full,deep --rounds 9        two scenes, the best of nine rounds

The status is 0, or 1 where a run ended in another status than it has to or an output isn't the same in every round.
"""

import contextlib
import datetime
import hashlib
import math
import os
import re
import shlex
import subprocess
import sys
import tempfile
import time
from typing import NamedTuple

import scenes
import shares
from abuflib import program, report
from abuflib.program import launcher_tunables


class Failed(Exception):
    """What is told of a run that can't be measured."""


NOTHING = hashlib.sha256().hexdigest()  # of an output that is empty
TOLD = re.compile(rb"pool full: (\d+) fragments")  # how a refusal tells the number of fragments


# Touches more memory than any scene takes, and ends. On a virtual machine a page that was free for a while may have gone back to the
# host, and the first to touch it waits several times as long: without this, what ran before decides a good part of a time.
WARM = """
import mmap
memory = mmap.mmap(-1, 512 << 20)
memory.madvise(mmap.MADV_HUGEPAGE)
for at in range(0, len(memory), 4096):
    memory[at] = 1
"""


class Run(NamedTuple):
    seconds: float
    processor: float  # seconds of all threads, in the program and in the kernel
    peak: int  # KiB
    status: int
    output: str  # its hash
    error: bytes

    def fragments(self):
        """The fragments that the refusal of a full pool tells, or 0 where there is no such refusal."""
        found = TOLD.match(self.error)
        return int(found.group(1)) if found else 0


# ---- running


def words_of(task, threads, nodes=None):
    return [*shlex.split(task.words), "--nodes", str(nodes or task.nodes), "--threads", str(threads)]


class Bench:
    """The folder with the scenes, the programs, and how they are run."""

    def __init__(self, folder, given):
        self.folder = folder
        self.rounds = given.rounds
        self.programs = given.programs
        self.variables = program.environment(given.tunables)
        self.is_cold = given.cold

    def path(self, name):
        return os.path.join(self.folder, name)

    def run(self, path, task, threads, nodes=None):
        """One run of one program, its output written to a file, in memory that was touched just before."""
        if not self.is_cold:
            subprocess.run([sys.executable, "-c", WARM], check=False)
        with open(self.path(task.scene), "rb") as scene, open(self.path("output"), "w+b") as output, \
                open(self.path("error"), "w+b") as error:
            before = time.perf_counter()
            child = subprocess.Popen([path, *words_of(task, threads, nodes)], stdin=scene, stdout=output, stderr=error,
                                     cwd=self.folder, env=self.variables)
            _, status, usage = os.wait4(child.pid, 0)
            seconds = time.perf_counter() - before
            child.returncode = os.waitstatus_to_exitcode(status)
            output.seek(0)
            error.seek(0)
            # The output is read in pieces, since Python's own peak is the least that can be told of the next run.
            return Run(seconds, usage.ru_utime + usage.ru_stime, usage.ru_maxrss, child.returncode,
                       hashlib.file_digest(output, "sha256").hexdigest(), error.read())

    def best(self, task, threads):
        """The best run of each program, all of them in turn."""
        runs = [[] for _ in self.programs]
        for number in range(self.rounds):
            # Every other round goes the other way round, so that none always follows the same one.
            for path, done in list(zip(self.programs, runs))[::1 if number % 2 == 0 else -1]:
                done.append(self.run(path, task, threads))
                if done[-1].status != task.status:
                    wanted = f" in place of {task.status}" if task.status else ""
                    raise Failed(f"{os.path.basename(path)} {task.words}: status {done[-1].status}{wanted}, "
                                 f"{done[-1].error.decode(errors='replace').strip()}")
        if len({(run.output, run.fragments()) for run in runs[0]}) > 1:
            raise Failed("the output isn't the same in every round")
        if task.status and runs[0][0].output != NOTHING:
            raise Failed("a refused run wrote something")
        return [min(done) for done in runs]

    def at_once(self, task, count, threads):
        """The seconds in which so many runs at once of the first program end, each of them on so many threads."""
        if not self.is_cold:
            subprocess.run([sys.executable, "-c", WARM], check=False)
        with contextlib.ExitStack() as files:
            inputs = [files.enter_context(open(self.path(task.scene), "rb")) for _ in range(count)]
            before = time.perf_counter()
            runs = [subprocess.Popen([self.programs[0], *words_of(task, threads)], stdin=scene, stdout=subprocess.DEVNULL,
                                     stderr=subprocess.DEVNULL, cwd=self.folder, env=self.variables) for scene in inputs]
            statuses = {run.wait() for run in runs}
            seconds = time.perf_counter() - before
        if statuses != {task.status}:
            raise Failed(f"{task.words}: statuses {sorted(statuses)} in place of {task.status}")
        return seconds

    def fragments(self, task):
        """The number of fragments, which a pool of one node tells."""
        counted = [task._replace(words=words) for words in task.counted or (task.words,)]
        return sum(self.run(self.programs[0], of_it, 4, nodes=1).fragments() for of_it in counted)


# ---- printing


class Table:
    """Rows that are printed one by one, in columns or as Markdown."""

    def __init__(self, head, is_markdown):
        self.is_markdown = is_markdown
        self.widths = [max(len(name), 9) for name in head]
        self.row(head)
        if is_markdown:
            print("|" + "---|" + "---:|" * (len(head) - 1), flush=True)

    def row(self, cells):
        if self.is_markdown:
            print("| " + " | ".join(cells) + " |", flush=True)
        else:
            first, *rest = (f"{cell:>{width}}" for cell, width in zip(cells, self.widths))
            print("  ".join([f"{first.strip():<{self.widths[0]}}", *rest]), flush=True)


def milliseconds(seconds):
    return f"{seconds * 1000:.1f} ms"


def mebibytes(run):
    return f"{run.peak / 1024:.0f} MiB"


def beside(runs):
    """The cells of the other program, if there is one: its time, and how many times longer the first program takes."""
    return [cell for other in runs[1:] for cell in (milliseconds(other.seconds), f"{runs[0].seconds / other.seconds:.2f}")]


def beside_more(runs):
    """The ratio of the processor times, and the peak of the other program."""
    return [cell for other in runs[1:] for cell in (f"{runs[0].processor / other.processor:.2f}", mebibytes(other))]


def head_beside(given, *more):
    return ["the other", "ratio", *more] if given.beside else []


def processor():
    """The name of the processor, as lscpu tells it."""
    try:
        told = subprocess.run(["lscpu"], capture_output=True, text=True, env={**os.environ, "LC_ALL": "C"}).stdout
    except OSError:
        told = ""
    found = re.search(r"(?m)^Model name:\s*(.*)$", told)
    return found.group(1) if found else "an unknown processor"


def told(given):
    """The machine and the conditions, and in Markdown the command."""
    pages = f"GLIBC_TUNABLES={given.tunables}" if given.tunables else "pages of the usual size"
    command = f"`bench/bench.py {shlex.join(sys.argv[1:])}`: " if given.table else ""
    threads = given.threads[0]
    alone = f", on {threads} thread{'s' * (threads > 1)}" if given.kind in ("growth", "reading") else ""
    return (f"{command}{datetime.date.today()}, {processor()}, {os.cpu_count()} processors, "
            f"load {os.getloadavg()[0]:.1f} at the start; {pages}; best of {given.rounds}{alone}")


# ---- what is measured


def each(names, work):
    """Does the work for each name, tells what fails, and gives whether anything did."""
    failed = False
    for name in names:
        try:
            work(name)
        except (Failed, shares.Failed) as why:
            failed = True
            print(f"{name}: {why}", flush=True)
    return failed


def measure_scenes(bench, given):
    table = Table(["scene", "threads", "fragments", "time", "processor", "millions/s", "peak",
                   *head_beside(given, "processor ratio", "its peak")], given.table)

    def one(name):
        task = scenes.SCENES[name](bench.folder)
        # A refused run tells its fragments itself, and has found them all.
        fragments = 0 if task.status == scenes.FULL else bench.fragments(task)
        outputs = set()
        for threads in given.threads:
            runs = bench.best(task, threads)
            outputs.add((runs[0].output, runs[0].fragments()))
            fragments = runs[0].fragments() or fragments
            rate = fragments / runs[0].seconds / 1e6
            table.row([name, str(threads), str(fragments), milliseconds(runs[0].seconds), milliseconds(runs[0].processor),
                       f"{rate:.2f}", mebibytes(runs[0]), *beside(runs), *beside_more(runs)])
        if len(outputs) > 1:
            raise Failed("the output isn't the same for every number of threads")

    return each(given.only or scenes.SCENES, one)


def measure_shares(bench, given):
    print("\nShares of the time on one thread, in percent\n")
    table = Table(["scene", *shares.COLUMNS, "in kernel"], given.table)
    told = []

    def one(name):
        task = scenes.SCENES[name](bench.folder)
        found = shares.sampled([bench.programs[0], *words_of(task, 1)], bench.path(task.scene), bench.folder, bench.variables)
        table.row([name, *map(found.of_part, shares.COLUMNS), found.of_kernel()])
        told.extend([name, *row] for row in found.greatest(given.functions))

    failed = each(given.only or scenes.SCENES, one)
    if told:
        print("\nThe functions with the greatest shares\n")
        table = Table(["scene", "percent", "part", "function"], given.table)
        for row in told:
            table.row(row)
    return failed


def measure_growth(bench, given):
    table = Table(["series", "work", "unit", "time", "the rest", "ns a unit", "over log2", *head_beside(given)], given.table)

    def one(name):
        unit, steps = scenes.SERIES[name]
        for step in steps(bench.folder):
            work = step.work or bench.fragments(step.task)
            if not work:
                raise Failed("the program doesn't tell the number of fragments")
            runs = bench.best(step.task, given.threads[0])
            rests = bench.best(step.rest, given.threads[0])
            ours, *theirs = [(run.seconds - rest.seconds) * 1e9 / work for run, rest in zip(runs, rests)]
            compared = [cell for other in theirs for cell in (f"{other:.1f}", f"{ours / other:.2f}")]
            table.row([name, str(work), unit, milliseconds(runs[0].seconds), milliseconds(rests[0].seconds), f"{ours:.1f}",
                       f"{ours / math.log2(work):.2f}", *compared])

    return each(given.only or scenes.SERIES, one)


def measure_reading(bench, given):
    table = Table(["text", "size", "time", "MiB/s", *head_beside(given)], given.table)

    def one(kind):
        task, size = scenes.reading(bench.folder, kind, given.bytes)
        runs = bench.best(task, given.threads[0])
        table.row([kind, f"{size / 2 ** 20:.1f} MiB", milliseconds(runs[0].seconds), f"{size / 2 ** 20 / runs[0].seconds:.0f}",
                   *beside(runs)])

    return each(given.only or scenes.TEXTS, one)


def measure_stored(bench, given):
    table = Table(["scene", "threads", "stored in", "time", "of the first", "peak"], given.table)

    def one(name):
        stored = scenes.STORED[name]
        scene = scenes.demonstration(bench.folder, stored.number)
        outputs = set()
        for threads in given.threads:
            first = None
            for way, words, nodes in stored.ways:
                run = bench.best(scenes.Task(stored.words + words, scene, nodes), threads)[0]
                first = first or run
                outputs.add(run.output)
                table.row([name, str(threads), way, milliseconds(run.seconds), f"{run.seconds / first.seconds:.2f}",
                           mebibytes(run)])
        if len(outputs) > 1:
            raise Failed("the images aren't the same")

    return each(given.only or scenes.STORED, one)


def measure_at_once(bench, given):
    table = Table(["scene", "number", "one run", "as many runs", "times the work", "as many threads", "times as fast"], given.table)

    def one(name):
        task = scenes.SCENES[name](bench.folder)
        for number in given.threads:
            if number == 1:
                continue
            ways = [(1, 1), (number, 1), (1, number)]
            times = [[bench.at_once(task, *way) for way in ways] for _ in range(given.rounds)]
            alone, runs, threads = (min(way) for way in zip(*times))
            table.row([name, str(number), milliseconds(alone), milliseconds(runs), f"{number * alone / runs:.2f}",
                       milliseconds(threads), f"{alone / threads:.2f}"])

    return each(given.only or scenes.SCENES, one)


# ---- words

# For each kind of bench, what measures it and the names that it has.
KINDS = {"scenes": (measure_scenes, scenes.SCENES), "growth": (measure_growth, scenes.SERIES),
         "reading": (measure_reading, scenes.TEXTS), "stored": (measure_stored, scenes.STORED),
         "at-once": (measure_at_once, scenes.SCENES)}


def read_words():
    ask = report.words(__doc__)
    kind = ask.add_mutually_exclusive_group()
    for name in ("growth", "reading", "stored", "at-once"):
        kind.add_argument("--" + name, dest="kind", action="store_const", const=name, default="scenes")
    ask.add_argument("--shares", action="store_true", help="print besides how the time of the scenes is shared; perf is needed")
    ask.add_argument("--functions", metavar="N", type=int, default=0, help="with --shares: and the N greatest functions of each")
    program.add_option(ask)
    ask.add_argument("--beside", metavar="OTHER", help="another program, which runs in turn with the first")
    ask.add_argument("--only", metavar="NAMES", type=lambda text: text.split(","), help="these scenes, series or texts alone")
    ask.add_argument("--threads", metavar="N,N", type=lambda text: [int(part) for part in text.split(",")], default=[1, 4],
                     help="numbers of threads for the scenes (1,4); a series and a text take the first, and shares are of 1")
    ask.add_argument("--rounds", type=int, default=5, help="rounds, of which the best counts (5)")
    ask.add_argument("--pages", choices=["large", "usual"], default="large",
                     help=f"large: the programs are started with GLIBC_TUNABLES={launcher_tunables()}, as ./abuf starts abuf (large)")
    ask.add_argument("--cold", action="store_true", help="don't touch memory before each run")
    ask.add_argument("--bytes", type=int, default=8388608, help="the size of a text for --reading (8388608)")
    ask.add_argument("--table", action="store_true", help="print Markdown")
    given = ask.parse_args()
    for name in given.only or []:
        if name not in KINDS[given.kind][1]:
            ask.error(f"no {name}; there are {', '.join(KINDS[given.kind][1])}")
    given.tunables = launcher_tunables() if given.pages == "large" else ""
    given.programs = [program.path_of(given.abuf)] + [program.path_of(name) for name in [given.beside] if name]
    return given


def main():
    given = read_words()
    print(told(given) + "\n", flush=True)
    with tempfile.TemporaryDirectory() as folder:
        scenes.start(folder)
        bench = Bench(folder, given)
        failed = KINDS[given.kind][0](bench, given)
        if given.shares and given.kind == "scenes":
            failed |= measure_shares(bench, given)
    return report.WRONG if failed else report.WELL


if __name__ == "__main__":
    report.end(main)
