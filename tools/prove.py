#!/usr/bin/env python3
"""Proves the crates that the program stands on, and builds the program; ./abuf calls this if it isn't built yet.

    prove.py [--all] [--times] [--processors N]

    prove.py --times            tells of each crate how long it took

Crates that don't stand on each other are proved side by side. The one that the longest chain of others waits for comes first, and
takes half of the processors that are idle, or all if no other crate can begin. A crate that is proved stays so until it or one
below it changes, also if the run is ended.

Each crate is proved over the statements of those below, as `rt ci` proves it. They stand where `rt` keeps what it builds of a
crate, in its out/rlib. `rt lib` keeps whole proofs there, and to read them all takes the upper crates longer than to prove their own.
"""

import contextlib
import fcntl
import hashlib
import os
import shutil
import signal
import subprocess
import sys
import tempfile
import time
from typing import Iterator, Mapping

from abuflib import report
from abuflib.program import TOP
from abuflib.report import Fault

PROGRAM = "abuf"
# Tests, callers, and programs of their own: the program doesn't need them.
OTHERS = ("abuf_drawing_rows", "abuf_reading_rows", "abuf_refused", "abuf_rows", "abuf_uses", "abuf_watch", "abuf_watching")

# What a proof takes at most with one processor, and with each further one, in bytes.
MEMORY = 4_000_000_000
MORE_MEMORY = 1_500_000_000
# A proof gains little from more processors than these.
MOST_PROCESSORS = 4

Crates = Mapping[str, list[str]]


# ---- which crates there are


def read_crates(text: str) -> dict[str, list[str]]:
    """Each crate of crates.txt, with those that it names, of this repository and of the toolchain."""
    named = {}
    for line in text.splitlines():
        head, _, rest = line.partition("#")[0].partition(":")
        if head.strip():
            named[head.split()[0]] = rest.split()
    return named


def own_below(crates: Crates, name: str) -> list[str]:
    """The crates of this repository that a crate names."""
    return [it for it in crates[name] if it in crates]


def all_below(crates: Crates, name: str) -> set[str]:
    found = set(own_below(crates, name))
    for it in own_below(crates, name):
        found |= all_below(crates, it)
    return found


def chains(crates: Crates, lines: Mapping[str, int]) -> dict[str, int]:
    """For each crate the lines of the longest chain of crates that stand on each other, from it up."""
    found = dict(lines)
    for name in sorted(crates, key=lambda it: -len(all_below(crates, it))):
        for it in own_below(crates, name):
            found[it] = max(found[it], lines[it] + found[name])
    return found


def crate_folder(name: str) -> str:
    return os.path.join(TOP, "crates", name)


def sources(name: str) -> Iterator[str]:
    """The files that a crate's proof is made from."""
    for kind in ("proofs", "specs", "src"):
        for folder, folders, files in os.walk(os.path.join(crate_folder(name), kind)):
            folders.sort()
            yield from (os.path.join(folder, it) for it in sorted(files))


def count_lines(name: str) -> int:
    """How long a crate is, by which the time of its proof is guessed. A short one takes a while too."""
    count = 100
    for file in sources(name):
        with open(file, "rb") as it:
            count += it.read().count(b"\n")
    return count


# ---- how the processors are shared


def processors_for(waiting: int, idle: int, memory: float) -> int:
    """How many processors the first of so many crates that can begin takes of those that are idle; 0 where it has to wait."""
    if idle < 1 or memory < MEMORY:
        return 0
    wanted = idle if waiting == 1 else (idle + 1) // 2
    return min(wanted, MOST_PROCESSORS, 1 + int((memory - MEMORY) // MORE_MEMORY))


def memory_of(processors: int) -> int:
    return MEMORY + MORE_MEMORY * (processors - 1)


def free_memory() -> int:
    with open("/proc/meminfo", encoding="ascii") as file:
        for line in file:
            if line.startswith("MemAvailable:"):
                return int(line.split()[1]) * 1024
    return MEMORY


# ---- the toolchain


class Toolchain:
    """What proves, builds and links, found by the rt on the PATH."""

    def __init__(self) -> None:
        rt = shutil.which("rt")
        if rt is None:
            raise Fault("there is no rt: the toolchain has to be installed, and to stand on the PATH")
        self.folder = os.path.dirname(os.path.dirname(os.path.realpath(rt)))

    def path(self, *parts: str) -> str:
        return os.path.join(self.folder, *parts)

    def proves(self, crates: Crates, name: str, processors: int) -> list[str]:
        """The command that proves a crate and makes what is needed of it: the statements of a library, or the program."""
        is_library = os.path.isfile(os.path.join(crate_folder(name), "src", "lib.rt"))
        words = [self.path("bin", "rattle"), "build" if is_library or name == PROGRAM else "check", "--crate-name", name,
                 "src/lib.rt" if is_library else "src/main.rt", "--jobs", str(processors), "--links", f"{name}=",
                 "--antt-project", self.path("rattle", "logic", "antt-project.json"), "--logic-built", self.path("logic_built"),
                 "-L", f"dependency={self.path('rlibs')}"]
        for it in sorted(all_below(crates, name)):
            words += ["-L", f"dependency={kept_folder(it)}"]
        for it in ["std", *crates[name]]:
            words += ["--extern", f"{it}={library(it) if it in crates else self.path('rlibs', it + '.rlib')}"]
        if is_library:
            words += ["--statements", "-o", library(name)]
        elif name == PROGRAM:
            words += ["--toolchain", self.path("toolchain"), "--backend", "llvm", "-o", f"out/{name}.o"]
        return words

    def links(self) -> list[str]:
        return [self.path("bin", "rattle-link"), "--target", "x86_64-unknown-linux-gnu", "--toolchain", self.path("toolchain"),
                "-o", f"out/{PROGRAM}", f"out/{PROGRAM}.o", self.path("c", "libos_c.a"), self.path("c", "liblibc_c.a")]

    def sums(self, crates: Crates) -> dict[str, str]:
        """Of each crate a sum of all that its proof is made from."""
        with open(self.path("WHAT"), "rb") as file:
            kit = file.read()
        found: dict[str, str] = {}
        for name in sorted(crates, key=lambda it: len(all_below(crates, it))):
            sum = hashlib.sha256(kit + repr([found[it] for it in own_below(crates, name)]).encode())
            for path in sources(name):
                with open(path, "rb") as file:
                    sum.update(repr((os.path.relpath(path, TOP), file.read())).encode())
            found[name] = sum.hexdigest()
        return found


def kept_folder(name: str) -> str:
    return os.path.join(crate_folder(name), "out", "rlib")


def library(name: str) -> str:
    return os.path.join(kept_folder(name), name + ".rlib")


# ---- proving


class Proof:
    """The proof of one crate, under way."""

    def __init__(self, toolchain: Toolchain, crates: Crates, name: str, processors: int) -> None:
        self.toolchain, self.name, self.processors, self.began = toolchain, name, processors, time.monotonic()
        shutil.rmtree(kept_folder(name), ignore_errors=True)
        os.makedirs(kept_folder(name))
        self.log = tempfile.TemporaryFile("w+", encoding="utf-8", errors="replace")
        self.ran = self.start(toolchain.proves(crates, name, processors))

    def start(self, words: list[str]) -> subprocess.Popen[bytes]:
        return subprocess.Popen(words, cwd=crate_folder(self.name), stdin=subprocess.DEVNULL, stdout=self.log,
                                stderr=subprocess.STDOUT, start_new_session=True)

    def is_running(self) -> bool:
        return self.ran.poll() is None

    def stop(self) -> None:
        if self.is_running():
            os.killpg(self.ran.pid, signal.SIGTERM)
            self.ran.wait()

    def is_proved(self) -> bool:
        """Whether the crate is proved, and linked if it is the program; else the end of what the toolchain said is told."""
        is_proved = self.ran.returncode == 0 and (self.name != PROGRAM or self.start(self.toolchain.links()).wait() == 0)
        if not is_proved:
            self.log.seek(0)
            sys.stderr.writelines(self.log.readlines()[-20:])
        return is_proved


class Kept:
    """Which crates are proved as they are: by the sum of what each was proved from, which stands beside its statements. Statements
    fit only those that they were proved over, so all crates below have to be kept too."""

    def __init__(self, crates: Crates, sums: Mapping[str, str]) -> None:
        self.crates, self.sums = crates, sums

    def file(self, name: str) -> str:
        return os.path.join(kept_folder(name), "sum")

    def has(self, name: str) -> bool:
        made = os.path.join(crate_folder(name), "out", name) if name == PROGRAM else self.file(name)
        try:
            with open(self.file(name), encoding="ascii") as file:
                is_same = file.read() == self.sums[name] and os.path.exists(made)
        except FileNotFoundError:
            return False
        return is_same and all(self.has(it) for it in own_below(self.crates, name))

    def add(self, name: str) -> None:
        with open(self.file(name), "w", encoding="ascii") as file:
            file.write(self.sums[name])


class Progress:
    """Tells which crates are proved, and about how long the others take."""

    def __init__(self, lines: Mapping[str, int], is_timed: bool) -> None:
        self.lines, self.is_timed = lines, is_timed
        self.began, self.proved = time.monotonic(), list[str]()

    def add(self, proof: Proof) -> None:
        self.proved.append(proof.name)
        now = time.monotonic()
        done, all_lines = sum(self.lines[it] for it in self.proved), sum(self.lines.values())
        text = f"abuf: proved {proof.name}, {len(self.proved)} of {len(self.lines)}"
        if self.is_timed:
            text += f", in {now - proof.began:.0f} s on {proof.processors}, at {now - self.began:.0f} s"
        elif done < all_lines:
            text += f", about {int((now - self.began) * (all_lines - done) / done / 60) + 1} minutes left"
        print(text, file=sys.stderr, flush=True)


def prove(crates: Crates, left: list[str], processors: int, is_timed: bool) -> int:
    """Proves the crates that are left, and returns the status."""
    toolchain = Toolchain()
    kept = Kept(crates, toolchain.sums(crates))
    left = [it for it in left if not kept.has(it)]
    lines = {name: count_lines(name) for name in left}
    chain = chains({it: [below for below in crates[it] if below in left] for it in left}, lines)
    left.sort(key=lambda it: -chain[it])
    running: list[Proof] = []
    progress, memory = Progress(lines, is_timed), free_memory()
    try:
        while left or running:
            ready = [it for it in left if all(kept.has(below) for below in own_below(crates, it))]
            while ready:
                idle = processors - sum(it.processors for it in running)
                room = memory - sum(memory_of(it.processors) for it in running) if running else max(memory, MEMORY)
                taken = processors_for(len(ready), idle, room)
                if taken == 0:
                    break
                left.remove(ready[0])
                running.append(Proof(toolchain, crates, ready.pop(0), taken))
            time.sleep(0.2)
            for proof in [it for it in running if not it.is_running()]:
                running.remove(proof)
                if not proof.is_proved():
                    print(f"abuf: {proof.name} wasn't proved", file=sys.stderr)
                    return report.WRONG
                kept.add(proof.name)
                progress.add(proof)
    finally:
        for proof in running:
            proof.stop()
    return report.WELL


@contextlib.contextmanager
def alone(crates: Crates) -> Iterator[None]:
    """Waits until no other run, of this script or of `rt`, works in the crates' folders, and keeps others out until the end."""
    with contextlib.ExitStack() as held:
        for name in sorted(crates):
            folder = os.open(crate_folder(name), os.O_RDONLY)
            held.callback(os.close, folder)
            fcntl.flock(folder, fcntl.LOCK_EX)
        yield


def ended(number: int, _: object) -> None:
    sys.exit(128 + number)


def main() -> int:
    parser = report.words(__doc__)
    parser.add_argument("--all", action="store_true", help="the crates of tests, the callers, abuf_refused, and abuf_watch with its library too")
    parser.add_argument("--times", action="store_true", help="tell of each crate how long it took")
    parser.add_argument("--processors", type=int, default=len(os.sched_getaffinity(0)), metavar="N", help="use at most so many")
    given = parser.parse_args()
    if given.processors < 1:
        raise Fault("--processors takes a number above 0")
    for number in (signal.SIGINT, signal.SIGTERM, signal.SIGHUP):
        signal.signal(number, ended)
    with open(os.path.join(TOP, "crates.txt"), encoding="utf-8") as file:
        crates = read_crates(file.read())
    with alone(crates):
        return prove(crates, [it for it in crates if given.all or it not in OTHERS], given.processors, given.times)


if __name__ == "__main__":
    report.end(main)
