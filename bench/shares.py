"""How the time of a run is shared among the parts of the work, as perf samples it.

A sample counts for the part of the function in which it was taken; in the kernel and in the C library, of the function that
called them. The crate of a function decides, and its name where a crate has functions of several parts. What the compiler puts
into a function of another crate counts there.
"""

import os
import re
import shutil
import subprocess
from collections import Counter

# The parts, and what the names of their functions hold; the first that fits counts.
PARTS = {
    "starting": r"abuf_frame::(frame::.*(start|words)|initial_words)|atomic_table::.*of_words|abuf_picture::(re)?drawing|abuf_fan::(bound|order)|abuf_raster::upper_bound",
    "projecting": r"abuf_view::|abuf_scene::(assembly|triangle_fans|triangles)|abuf_num::division|abuf_top::loaded",
    "reading": r"abuf_(cli|io|text|obj|mtl|scene|num)::|abuf_top::(load|prepare|libraries|demonstration)|bstr::|clap::|std_coll",
    "drawing": r"abuf_(fan|draw|peel)::|abuf_raster::(?!plane)|abuf_frame::pass",
    "resolving": r"abuf_(resolve|band)::|abuf_raster::plane|abuf_picture::resolving|abuf_frame::|::sort::|std::thread::fork",
    "writing": r"abuf_pam::|abuf_top::image",
}
OTHER = "other"
COLUMNS = ("reading", "projecting", "starting", "drawing", "resolving", "writing", OTHER)


class Failed(Exception):
    """Why there are no shares."""


def part_of(function):
    return next((part for part, names in PARTS.items() if re.search(names, function)), OTHER)


def function_of(frames, program):
    """The innermost function of the program that isn't the allocator's, else the innermost of all; a frame is a function and the
    file that holds it."""
    return next((name for name, file in frames if file == program and not name.startswith("rattle_")), frames[0][0])


class Shares:
    """The samples of a run."""

    def __init__(self):
        self.all = 0
        self.in_kernel = 0
        self.functions = Counter()

    def add(self, frames, program):
        self.all += 1
        self.in_kernel += "kernel" in frames[0][1]
        self.functions[function_of(frames, program)] += 1

    def percent(self, count):
        return f"{100 * count / self.all:.1f}"

    def of_part(self, part):
        return self.percent(sum(count for function, count in self.functions.items() if part_of(function) == part))

    def of_kernel(self):
        return self.percent(self.in_kernel)

    def greatest(self, number):
        """The functions with the greatest shares: the share, the part and the name of each."""
        return [(self.percent(count), part_of(function), function) for function, count in self.functions.most_common(number)]


def sampled(command, scene, folder, variables):
    """The samples of one run of the command."""
    if not shutil.which("perf"):
        raise Failed("perf isn't there")
    data = os.path.join(folder, "perf.data")
    with open(scene, "rb") as given:
        subprocess.run(["perf", "record", "-q", "-F", "1999", "--call-graph", "dwarf,1024", "-o", data, *command], stdin=given,
                       stdout=subprocess.DEVNULL, stderr=subprocess.DEVNULL, cwd=folder, env=variables)
    script = subprocess.run(["perf", "script", "-i", data, "--no-inline", "-F", "ip,sym,dso"], capture_output=True, text=True)
    found = Shares()
    for sample in script.stdout.split("\n\n"):
        frames = re.findall(r"(?m)^\s+[0-9a-f]+ (.*) \((.*)\)$", sample)
        if frames:
            found.add(frames, command[0])
    if not found.all:
        raise Failed("perf took no samples: " + script.stderr.strip())
    return found
