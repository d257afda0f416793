#!/usr/bin/env python3
"""Times a sequence of images beside as many runs of render.

    sequences.py [OPTIONS]      100 images of the lantern with 1 and with 8 samples, and 20 of a mesh, on 1 and on 4 threads

An image has 320x240 pixels, and the camera goes once round the scene. One run of `abuf sequence` draws all images, into one file;
then `abuf render` is run once for each image, one after another, into a file each. A time is that of all runs, from the start of
the first process to the end of the last, and the processor time is that of all threads of all runs, in the program and in the
kernel; of several rounds the best counts, the two in turn. The images have to be the same bytes. With --pieces N the path is cut
into N pieces besides, drawn by N processes at a time, each on one thread. README.md here has figures.

    sequences.py --only lantern --pieces 4

The status is 0, or 1 where a run failed or the images aren't the same.
"""

import datetime
import os
import shlex
import subprocess
import sys
import tempfile
import time
from typing import NamedTuple

import bench
import scenes
from abuflib import program, report


class Sequence(NamedTuple):
    """A path once round a scene, and the scene."""

    round: scenes.Round
    scene: object  # writes the scene into a folder, and gives its name


def lantern(folder):
    return scenes.example(folder, "lantern")


def mesh(folder):
    return scenes.write(folder, "mesh.obj", scenes.write_mesh)


SEQUENCES = {
    "lantern": Sequence(scenes.LANTERN, lantern),
    "lantern8": Sequence(scenes.LANTERN._replace(words=scenes.LANTERN.words + " --samples 8"), lantern),
    "mesh": Sequence(scenes.Round(20, "--size 320x240", (8, 1), ("0", "0", "-9")), mesh),
}


class Cost(NamedTuple):
    """What the runs of a way took: seconds from the first start to the last end, and seconds of all processors."""

    seconds: float
    processor: float
    peak: int


class Clock:
    """Runs programs in a folder, over the scene that is there, and adds up their processor time and finds their memory's peak."""

    def __init__(self, folder, given):
        self.folder = folder
        self.program = given.program
        self.variables = program.environment(given.tunables)
        self.processor = 0.0
        self.peak = 0

    def path(self, name):
        return os.path.join(self.folder, name)

    def start(self, words, scene, output):
        with open(self.path(scene), "rb") as source, open(self.path(output), "wb") as sink:
            return subprocess.Popen([self.program, *words], stdin=source, stdout=sink, stderr=subprocess.PIPE, cwd=self.folder,
                                    env=self.variables)

    def end(self, child):
        told = child.stderr.read()
        child.stderr.close()
        _, status, usage = os.wait4(child.pid, 0)
        child.returncode = os.waitstatus_to_exitcode(status)
        self.processor += usage.ru_utime + usage.ru_stime
        self.peak = max(self.peak, usage.ru_maxrss)
        if child.returncode != 0:
            raise bench.Failed(f"{' '.join(child.args[1:])}: status {child.returncode}, {told.decode(errors='replace').strip()}")

    def time(self, runs, at_once=1):
        """What runs cost, so many of which go on at once; each is the words, the scene and the file for the output."""
        self.processor, self.peak = 0.0, 0
        before = time.perf_counter()
        going = []
        for run in runs:
            if len(going) == at_once:
                self.end(going.pop(0))
            going.append(self.start(*run))
        for child in going:
            self.end(child)
        return Cost(time.perf_counter() - before, self.processor, self.peak)

    def joined(self, names):
        found = []
        for name in names:
            with open(self.path(name), "rb") as file:
                found.append(file.read())
        return b"".join(found)


def ways(clock, name, scene, given, threads):
    """For each way to draw the sequence its runs, and how many go on at once."""
    of_all = SEQUENCES[name].round.words.split()
    shots = SEQUENCES[name].round.shots()
    words = [*of_all, "--threads", str(threads)]
    scenes.write_lines(clock.folder, "whole.path", shots)
    yield "sequence", [(["sequence", "whole.path", *words], scene, "whole")], 1
    yield "render", [(["render", *words, *scenes.camera(shot)], scene, f"image{number}") for number, shot in enumerate(shots)], 1
    if given.pieces:
        pieces = []
        for number in range(given.pieces):
            first, end = (k * len(shots) // given.pieces for k in (number, number + 1))
            scenes.write_lines(clock.folder, f"{number}.path", shots[first:end])
            pieces.append((["sequence", f"{number}.path", *of_all, "--threads", "1"], scene, f"piece{number}"))
        yield f"{given.pieces} pieces at once", pieces, given.pieces


def best_of(costs):
    """The best of several rounds: each time for itself, since what disturbs a run makes it longer and never shorter."""
    return Cost(*(min(each) for each in zip(*costs)))


def measure(clock, name, given, table):
    scene = SEQUENCES[name].scene(clock.folder)
    images = SEQUENCES[name].round.images
    outputs = set()
    for threads in given.threads:
        runs = list(ways(clock, name, scene, given, threads))
        rounds = [[clock.time(of_it, at_once) for _, of_it, at_once in runs] for _ in range(given.rounds)]
        best = {way: best_of(costs) for (way, _, _), costs in zip(runs, zip(*rounds))}
        render = best["render"]
        for way, of_it, _ in runs:
            cost = best[way]
            outputs.add(clock.joined([run[2] for run in of_it]))
            shown = "1" if way.endswith("at once") else str(threads)
            table.row([name, str(images), way, shown, bench.milliseconds(cost.seconds), bench.milliseconds(cost.seconds / images),
                       f"{cost.seconds / render.seconds:.2f}", bench.milliseconds(cost.processor),
                       f"{cost.processor / render.processor:.2f}", f"{cost.peak / 1024:.0f} MiB"])
    if len(outputs) > 1:
        raise bench.Failed("the images aren't the same")


def told(given):
    """The machine and the conditions, and in Markdown the command."""
    command = f"`bench/sequences.py {shlex.join(sys.argv[1:])}`: " if given.table else ""
    return (f"{command}{datetime.date.today()}, {bench.processor()}, {os.cpu_count()} processors, "
            f"load {os.getloadavg()[0]:.1f} at the start; GLIBC_TUNABLES={given.tunables}; best of {given.rounds}")


def read_words():
    ask = report.words(__doc__)
    program.add_option(ask)
    ask.add_argument("--only", metavar="NAMES", type=lambda text: text.split(","), default=list(SEQUENCES),
                     help="these sequences alone: " + ", ".join(SEQUENCES))
    ask.add_argument("--threads", metavar="N,N", type=lambda text: [int(part) for part in text.split(",")], default=[1, 4],
                     help="numbers of threads (1,4)")
    ask.add_argument("--pieces", metavar="N", type=int, default=0, help="and the path in N pieces at once")
    ask.add_argument("--rounds", type=int, default=3, help="rounds, of which the best counts (3)")
    ask.add_argument("--tunables", metavar="TEXT", default=program.launcher_tunables(),
                     help="all programs are started with GLIBC_TUNABLES=TEXT (that of ./abuf)")
    ask.add_argument("--table", action="store_true", help="print Markdown")
    given = ask.parse_args()
    for name in given.only:
        if name not in SEQUENCES:
            ask.error(f"no {name}; there are {', '.join(SEQUENCES)}")
    given.program = program.path_of(given.abuf)
    return given


def main():
    given = read_words()
    print(told(given) + "\n", flush=True)
    with tempfile.TemporaryDirectory() as folder:
        scenes.start(folder)
        clock = Clock(folder, given)
        head = ["scene", "images", "way", "threads", "time", "an image", "of render", "processor", "of render", "peak"]
        table = bench.Table(head, given.table)
        failed = bench.each(given.only, lambda name: measure(clock, name, given, table))
    return report.WRONG if failed else report.WELL


if __name__ == "__main__":
    report.end(main)
