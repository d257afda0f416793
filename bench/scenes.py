"""The scenes that bench.py draws, and the series in which it doubles the work.

Scenes are written line by line and never held whole: the peak memory of a child process isn't told below that of the process
that starts it.
"""

import math
import os
import random
import re
import shutil
import sys
from typing import NamedTuple

import obj_files

sys.path.insert(0, os.path.join(os.path.dirname(os.path.dirname(os.path.abspath(__file__))), "tools"))
import reference  # noqa: E402
import turntable  # noqa: E402
from abuflib.program import EXAMPLES  # noqa: E402
from abuflib.scene import MOST_NODES, commands_of  # noqa: E402

EMPTY = "empty.obj"
LIBRARY = "four.mtl"
AWAY = "--move=4000,0,-400"  # the camera looks past the scene: it is read and projected, and nothing of it is drawn
FULL = 5  # the status of a pool that is too small for the fragments
FAULTY = 3  # that of a scene with a faulty line


class Task(NamedTuple):
    """A run: the words, the scene on standard input, the most fragments, and the status in which it has to end. Where a pool of
    one node doesn't tell the fragments of these words, the further words are those whose fragments are added up in their place."""

    words: str
    scene: str = EMPTY
    nodes: int = 4194304
    status: int = 0
    counted: tuple[str, ...] = ()


# ---- writers


def start(folder):
    """Writes the empty scene and the library of four materials, two opaque and two of glass."""
    open(os.path.join(folder, EMPTY), "w").close()
    with open(os.path.join(folder, LIBRARY), "w") as file:
        for i, (colour, alpha) in enumerate([("0.8 0.2 0.1", 1), ("0.1 0.7 0.3", 0.5), ("0.2 0.3 0.9", 1), ("0.9 0.9 0.2", 0.7)]):
            file.write(f"newmtl m{i}\nKd {colour}\nd {alpha}\n")


def write_mesh(file, side=225):
    """A waved sheet that fills the image, of 2 (side - 1)^2 triangles, as a modelling program exports it."""
    file.write(f"mtllib {LIBRARY}\no Mesh\n")
    for j in range(side):
        for i in range(side):
            x, y = -5.6 + 11.2 * i / (side - 1), -4.2 + 8.4 * j / (side - 1)
            file.write(f"v {x:.6f} {y:.6f} {0.6 * math.sin(3 * x) * math.cos(2 * y):.6f}\n")
    file.write("vn 0 0 1\ns 0\n")
    for j in range(side - 1):
        file.write(f"usemtl m{j % 4}\n")
        for i in range(side - 1):
            a = j * side + i + 1
            file.write(f"f {a}//1 {a + 1}//1 {a + side}//1\nf {a + 1}//1 {a + side + 1}//1 {a + side}//1\n")


def write_soup(file, count=100000):
    """Small triangles, each for itself, at random places all over the image."""
    chance = random.Random(3)
    file.write(f"mtllib {LIBRARY}\n")
    for i in range(count):
        if i % 1000 == 0:
            file.write(f"usemtl m{chance.randrange(4)}\n")
        x, y, z = chance.uniform(-5.4, 5.4), chance.uniform(-4, 4), chance.uniform(-3, 0.5)
        x, y = x * (4 - z) / 4, y * (4 - z) / 4
        for _ in range(3):
            corner = [part + chance.uniform(-0.06, 0.06) for part in (x, y, z)]
            file.write("v {:.6f} {:.6f} {:.6f}\n".format(*corner))
        file.write(f"f {3 * i + 1} {3 * i + 2} {3 * i + 3}\n")


def write_text(file, count=1000000):
    """As many lines of points as of faces, 53 bytes a pair."""
    chance = random.Random(1)
    for _ in range(count):
        file.write("v {:.5f} {:.5f} {:.5f}\n".format(*(chance.uniform(-2, 2) for _ in range(3))))
    for i in range(count):
        file.write(f"f {i + 1}/{(i + 1) % 100} {i * 7 % count + 1} {i * 13 % count + 1}\n")


def write_pile(file, count):
    """Triangles of glass that each cover the whole image and cross one another within it."""
    chance = random.Random(2)
    file.write(f"mtllib {LIBRARY}\nusemtl m1\n")
    for x, y in ((-40, -40), (40, -40), (0, 60)):
        for _ in range(128):
            file.write(f"v {x} {y} {chance.uniform(-2, 1):.6f}\n")
    for _ in range(count):
        file.write("f {} {} {}\n".format(*(corner * 128 + chance.randrange(128) + 1 for corner in range(3))))


def write_demonstration(file, count=500):
    """The triangles of the demonstration scene with the four materials, so that half of them are opaque."""
    scene = reference.demonstration(count)[0].decode().replace("mtllib demo.mtl", f"mtllib {LIBRARY}")
    file.write(re.sub(r"usemtl m(\d)", lambda found: f"usemtl m{int(found[1]) % 4}", scene))


def write(folder, name, writer, *size):
    """Writes a scene, unless it is there, and gives its name."""
    path = os.path.join(folder, name)
    if not os.path.exists(path):
        with open(path, "w") as file:
            writer(file, *size)
    return name


def example(folder, name):
    """Copies an example with its library, and gives its name."""
    for file in (name + ".obj", name + ".mtl"):
        if os.path.exists(os.path.join(EXAMPLES, file)):
            shutil.copy(os.path.join(EXAMPLES, file), folder)
    return name + ".obj"


def words_of(name):
    """The words in the head of an example, such as '# abuf render --size 320x240'."""
    with open(os.path.join(EXAMPLES, name + ".obj"), encoding="utf-8") as file:
        return commands_of(file.read())[0].removeprefix("abuf ")


# ---- sequences


class Round(NamedTuple):
    """A path of a camera that goes once round a scene: its images, the tilt and the shift of turntable.py, and the words of all
    images."""

    images: int
    words: str
    tilt: tuple[int, int]
    shift: tuple[str, str, str]

    def shots(self) -> list[str]:
        """The lines of the path, one an image."""
        return turntable.path(self.images, self.tilt, self.shift, "").splitlines()[1:]


LANTERN = Round(100, "--size 320x240 --background 0.04,0.045,0.09 --focal 2.7", (8, 1), ("0", "0.36", "-8.6"))


def camera(shot: str) -> list[str]:
    """The words with which render draws the image of a line of a path."""
    parts = shot.split()
    return ["--turn=" + ",".join(parts[:4]), "--move=" + ",".join(parts[4:])]


def write_lines(folder: str, name: str, lines: list[str]) -> None:
    with open(os.path.join(folder, name), "w") as file:
        file.writelines(line + "\n" for line in lines)


def sequence(folder: str) -> Task:
    """The lantern from all sides. A full pool is told of the first image alone, so each image is counted by itself."""
    shots = LANTERN.shots()
    write_lines(folder, "lantern.path", shots)
    return Task(f"sequence lantern.path {LANTERN.words}", example(folder, "lantern"),
                counted=tuple(" ".join(["render", LANTERN.words, *camera(shot)]) for shot in shots))


# ---- scenes

LAYERS = "render --size 160x120"  # with layers there is no pool, so the fragments are those of the same words without them

# Each scene of the bench: its name, and the function that writes it into a folder and gives its task.
SCENES = {
    "full": lambda folder: Task("demo 4000", nodes=MOST_NODES),
    "deep": lambda folder: Task("demo 200000 --size 64x48", nodes=MOST_NODES),
    "deep8": lambda folder: Task("demo 20000 --size 64x48 --samples 8", nodes=MOST_NODES),
    "pile": lambda folder: Task("render --size 40x30 --samples 8", write(folder, "pile.obj", write_pile, 800)),
    "mesh": lambda folder: Task("render --size 1280x960 --samples 8", write(folder, "mesh.obj", write_mesh)),
    "soup": lambda folder: Task("render --size 1280x960 --samples 8", write(folder, "soup.obj", write_soup)),
    "text": lambda folder: Task("render --size 1x1", write(folder, "text.obj", write_text), MOST_NODES),
    "refuse": lambda folder: Task("demo 20000", nodes=MOST_NODES, status=FULL),
    "peel": lambda folder: Task(f"{LAYERS} --peel", write(folder, "demo.obj", write_demonstration), counted=(LAYERS,)),
    "lantern": lambda folder: Task(words_of("lantern"), example(folder, "lantern")),
    "sequence": sequence,
    "white": lambda folder: Task("render --size 4x4", example(folder, "white")),
}


# ---- bands and layers


def demonstration(folder, number):
    """Writes the demonstration scene of so many triangles, with its library, and gives its name."""
    scene, library = reference.demonstration(number)
    for name, data in ((f"demo{number}.obj", scene), ("demo.mtl", library)):
        with open(os.path.join(folder, name), "wb") as file:
            file.write(data)
    return f"demo{number}.obj"


class Stored(NamedTuple):
    """A scene, and the ways to store its fragments that are compared, the first of them with the others: for each its name,
    further words, and the nodes of its pool."""

    number: int
    words: str
    ways: list


WHOLE = ("one frame", "", MOST_NODES)
SIXTEEN = ("16 bands", " --bands 16", 600000)
SIXTEEN_LARGER = ("16 bands", " --bands 16", 650000)  # the eighth has 614,215 fragments with 8 samples
PEELED = ("layers", " --peel", 1)

# Each scene: its name, and what is compared.
STORED = {
    "demo-1000": Stored(1000, "render --size 640x480", [WHOLE, SIXTEEN]),
    "demo-1000-by-8": Stored(1000, "render --size 640x480 --samples 8", [WHOLE, SIXTEEN_LARGER]),
    "demo-500": Stored(500, "render --size 160x120", [WHOLE, SIXTEEN, PEELED]),
    "demo-500-by-8": Stored(500, "render --size 160x120 --samples 8", [WHOLE, SIXTEEN, PEELED]),
    "demo-20000": Stored(20000, "render --size 640x480", [("32 bands", " --bands 32", MOST_NODES),
                                                          ("120 bands", " --bands 120", MOST_NODES)]),
}


# ---- series


class Step(NamedTuple):
    """One step of a series: how much work, the task, and the same task without that work; `work` 0 stands for the fragments."""

    work: int
    task: Task
    rest: Task


def triangles(folder):
    """Triangles of the demonstration scene in an image of one size."""
    for count in (12500, 25000, 50000, 100000, 200000):
        yield Step(count, Task(f"demo {count} --size 64x48", nodes=MOST_NODES), Task("demo 1 --size 64x48", nodes=MOST_NODES))


def image(folder):
    """One scene in images of which each has about twice the pixels of the one before."""
    for size in ("320x240", "453x339", "640x480", "905x679", "1280x960", "1810x1358"):
        yield Step(0, *(Task(f"demo 250 --samples 8 --size {wanted}", nodes=MOST_NODES) for wanted in (size, "1x1")))


def text(folder):
    """Lines of text that are read and projected, and of which nothing is drawn."""
    for count in (62500, 125000, 250000, 500000, 1000000):
        scene = write(folder, f"text{count}.obj", write_text, count)
        yield Step(2 * count, Task(f"render --size 1x1 {AWAY}", scene), Task(f"render --size 1x1 {AWAY}"))


def pile(folder):
    """Fragments in the list of one pixel."""
    for count in (65536, 131072, 262144, 524288, 1048576):
        scene = write(folder, f"pile{count}.obj", write_pile, count)
        yield Step(count, *(Task(f"render --size 1x1 --samples 8{away}", scene) for away in ("", " " + AWAY)))


# Each series: its name, what its work is counted in, and the function that gives its steps.
SERIES = {
    "triangles": ("triangle", triangles),
    "image": ("fragment", image),
    "text": ("line", text),
    "list": ("fragment", pile),
}


# ---- reading

TEXTS = [kind for kind in obj_files.KINDS if kind != "library"]


def reading(folder, kind, size):
    """A scene of obj_files.py with a faulty line put last, so that a run ends when all of it was read, and its bytes."""
    path = os.path.join(folder, kind + ".obj")
    with open(path, "wb") as file:
        obj_files.write(kind, size, file)
        file.write(b"f 1\n")
    return Task("render --size 1x1", kind + ".obj", status=FAULTY), os.path.getsize(path)
