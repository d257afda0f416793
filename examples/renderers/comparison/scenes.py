"""The scenes that renderers are compared on. They are written into a folder; what is made here is the same in every run."""

import itertools
import os
import random
import re
import shutil
import zipfile
from dataclasses import dataclass
from typing import NamedTuple, Sequence

import fit
import reference
from abuflib import program
from abuflib.scene import commands_of

FURNITURE = "/usr/share/sweethome3d/furniture/Scopia.sh3f"
PIECE = "scopia/aquarium/aquarium"  # of Debian's package sweethome3d-furniture
PACKAGE = "sweethome3d-furniture"
STACKS = {3: 0.5, 8: 0.25, 64: 0.05, 256: 0.015, 1024: 0.004}  # films, and the alpha of each
BACKGROUND = "0.92,0.94,0.97"
# From the farthest to the nearest film.
PALETTE = ("0.85 0.1 0.1", "0.9 0.5 0.05", "0.85 0.8 0.1", "0.3 0.7 0.15", "0.05 0.6 0.5", "0.1 0.45 0.85", "0.25 0.2 0.8", "0.6 0.1 0.65")


class Order(NamedTuple):
    """A scene as a file, with its faces in some order."""

    name: str
    path: str


@dataclass
class Scene:
    name: str
    says: str
    words: list[str]  # the options of abuf
    orders: list[Order]  # of the same faces, which give the same image
    missing: str = ""  # what to install, where it isn't there

    def path(self) -> str:
        return self.orders[0].path


def write(folder: str, name: str, data: bytes) -> str:
    path = os.path.join(folder, name)
    with open(path, "wb") as file:
        file.write(data)
    return path


# ---- stacks of films


def film(depth: int, count: int) -> list[str]:
    """The lines of a film: the farthest is 0. The nearer, the narrower, so an image shows all numbers of layers side by side."""
    part = depth / (count - 1)
    z = 2 * part - 1
    left, right = (side * (4 - z) for side in (-0.62, 0.62 - part))  # the camera stands at 0,0,4
    corners = ((left, -1.93), (right, -1.93), (right, 1.87), (left, 1.87))
    return [*(f"v {x:.6f} {y:.6f} {z:.6f}" for x, y in corners), f"usemtl film{depth * len(PALETTE) // count}", "f -4 -3 -2 -1"]


def orders_of(count: int) -> dict[str, Sequence[int]]:
    """The films in several orders, by their depth from the farthest on."""
    far_to_near = range(count)
    if count == 3:
        return {"".join(map(str, order)): order for order in itertools.permutations(far_to_near)}
    shuffled = list(far_to_near)
    random.Random(count).shuffle(shuffled)
    return {"far-to-near": far_to_near, "near-to-far": far_to_near[::-1], "shuffled": shuffled}


def stack(folder: str, count: int) -> Scene:
    library = "".join(f"newmtl film{k}\nKd {colour}\nd {STACKS[count]}\n" for k, colour in enumerate(PALETTE))
    write(folder, f"stack-{count}.mtl", library.encode())
    orders = []
    for name, depths in orders_of(count).items():
        lines = [f"mtllib stack-{count}.mtl", *(line for depth in depths for line in film(depth, count))]
        orders.append(Order(name, write(folder, f"stack-{count}-{name}.obj", ("\n".join(lines) + "\n").encode())))
    return Scene(f"stack-{count}", f"{count} films one behind another, of alpha {STACKS[count]}. To the left all of them cover a pixel, to the right the "
                 "farthest alone.", ["--size", "64x64", "--background", BACKGROUND], orders)


# ---- examples, and what others made


def example(folder: str, name: str, says: str) -> Scene:
    """A scene of examples/, with the camera of the command at its head."""
    for ending in (".obj", ".mtl"):
        shutil.copy(os.path.join(program.EXAMPLES, name + ending), folder)
    path = os.path.join(folder, name + ".obj")
    with open(path, encoding="utf-8") as file:
        words = commands_of("".join(line for line in file if line.startswith("# abuf ")))[0].split()[2:]
    return Scene(name, says, words, [Order("as-it-is", path)])


def furniture(folder: str) -> Scene:
    """A piece of furniture of Debian's package, without its textures."""
    name = os.path.basename(PIECE)
    scene = Scene("furniture", f"{name} of {os.path.basename(FURNITURE)} in Debian's package {PACKAGE}: glass, water and what is behind them.",
                  [], [])
    if not os.path.exists(FURNITURE):
        scene.missing = f"install Debian's package {PACKAGE}"
        return scene
    with zipfile.ZipFile(FURNITURE) as pieces:
        write(folder, name + ".mtl", pieces.read(PIECE + ".mtl"))
        data = pieces.read(PIECE + ".obj")
    path = write(folder, name + ".obj", data)
    turn = (8, 1, -2, 0)
    words, _ = fit.fit(fit.turned(fit.points_of(data), turn), 4 / 3)
    scene.words = ["--size", "320x240", "--background", BACKGROUND, "--turn=" + ",".join(map(str, turn)), *words]
    scene.orders.append(Order("as-it-is", path))
    return scene


def demonstration(folder: str, count: int) -> Scene:
    data, library = reference.demonstration(count)
    write(folder, "demo.mtl", library)
    return Scene(f"demo-{count}", f"The {count} triangles of `abuf demo {count}`, of seven kinds of glass and one that is opaque.",
                 ["--size", "640x480"], [Order("as-it-is", write(folder, f"demo-{count}.obj", data))])


def all_in(folder: str) -> list[Scene]:
    """Writes the scenes into a folder."""
    os.makedirs(folder, exist_ok=True)
    return [
        *(stack(folder, count) for count in STACKS),
        example(folder, "panes", "Panes of glass that cross each other."),
        example(folder, "films", "Coloured films in one plane, all at the same depth: the later one in the file is on top."),
        example(folder, "cube", "A half transparent cube as a modelling program exports it."),
        example(folder, "lantern", "A lantern of stained glass, lit by its candle."),
        furniture(folder),
        demonstration(folder, 1000),
    ]


def short(name: str) -> str:
    """A name as a part of the names of files."""
    return re.sub(r"[^a-z0-9-]+", "-", name.lower()).strip("-")
