"""What the scripts of renderers share: the scene as it is handed over, runs that are measured, and the words of a script.

A script draws a scene of abuf with another renderer:

    draw_NAME.py --info                      what the renderer is, as JSON
    draw_NAME.py SCENE.obj IMAGE WORDS..     draws the scene into IMAGE, a PNG, PPM or PAM of 8 bits

    examples/renderers/draw_povray.py examples/cube.obj cube.png --size 320x240 --turn=8,2,-3,0

WORDS are the options of `abuf render`. Those that say what is seen are kept, and a pixel has the colour of its centre, whatever
--samples says. A script ends in status 0, in 3 where the renderer isn't there or can't draw this scene, and in 4 where it failed. One
line on standard error says why. On standard output it tells what the run of the renderer took, as JSON.
"""

import json
import math
import os
import re
import shutil
import signal
import subprocess
import sys
import tempfile
import time
from dataclasses import asdict, dataclass
from typing import Callable, NamedTuple, NoReturn, Sequence

HERE = os.path.dirname(os.path.abspath(__file__))
TOP = os.path.dirname(os.path.dirname(HERE))
LAUNCHER = os.path.join(HERE, "launch.py")
if os.path.join(TOP, "tools") not in sys.path:
    sys.path.insert(0, os.path.join(TOP, "tools"))

import agree  # noqa: E402
import reference  # noqa: E402
from abuflib.report import Fault  # noqa: E402

DRAWN, CANT, FAILED = 0, 3, 4
KEPT = ("size", "threads", "turn", "move", "focal", "near", "background")  # options
MOST_TEXT = 2000  # of what a renderer says that fails
GIB = 1 << 30

Point = tuple[float, float, float]


class Cant(Exception):
    """The renderer isn't there, or can't draw this scene; the text is one line."""


class Failed(Exception):
    """The renderer failed; the text is one line."""


# ---- the scene


class Material(NamedTuple):
    """A flat surface: no light falls on it, and both of its sides are drawn."""

    colour: Point  # red, green and blue, linear, 0 to 1
    alpha: float


class Triangle(NamedTuple):
    corners: tuple[Point, Point, Point]  # as the camera sees them
    material: int  # its place among the materials


class Camera(NamedTuple):
    """Where the camera stands in the coordinates of the OBJ file, for renderers that read it themselves."""

    position: Point
    direction: Point
    up: Point


@dataclass(frozen=True)
class Scene:
    """A scene as abuf reads it. The camera stands at 0,0,0 and looks along -z, with x to the right and y upwards."""

    path: str  # of the OBJ file
    words: list[str]  # the options of abuf that are kept
    width: int
    height: int
    background: Point  # linear, 0 to 1
    focal: float  # at the distance w the image shows the height 2·w/focal
    near: float  # what is nearer is cut away
    threads: int
    materials: list[Material]
    triangles: list[Triangle]  # in the order of the file; of equal depth, the later one is on top
    camera: Camera

    @property
    def angle(self) -> float:
        """The vertical field of view in degrees."""
        return math.degrees(2 * math.atan(1 / self.focal))

    @property
    def distances(self) -> list[float]:
        return [-corner[2] for triangle in self.triangles for corner in triangle.corners]

    @property
    def far(self) -> float:
        """A distance beyond all corners."""
        return 1.01 * max([2 * self.near, *self.distances])

    @property
    def is_cut(self) -> bool:
        """Whether anything lies in front of the near plane."""
        return min(self.distances, default=self.near) < self.near

    @property
    def most_layers(self) -> int:
        """No more faces lie one behind another."""
        return len(self.triangles)

    def by_material(self) -> list[list[Triangle]]:
        """The triangles of each material, in the order of the file."""
        groups: list[list[Triangle]] = [[] for _ in self.materials]
        for triangle in self.triangles:
            groups[triangle.material].append(triangle)
        return groups

    def save(self, path: str) -> None:
        """Writes all of it as JSON, for renderers in other languages."""
        with open(path, "w", encoding="utf-8") as file:
            json.dump({**asdict(self), "angle": self.angle, "far": self.far, "materials": [one._asdict() for one in self.materials],
                       "triangles": [one._asdict() for one in self.triangles], "camera": self.camera._asdict()}, file)


def camera_of(job: reference.Job) -> Camera:
    """A point p is seen at R·p + t, so the camera stands at -R'·t, where R' is R turned back."""
    scale = sum(part * part for part in job.turn)
    still = reference.replace(job, shift=(0, 0, 0))
    columns = [reference.seen(still, [int(i == k) for i in range(3)]) for k in range(3)]
    rows = [tuple(columns[k][i] * (-1 if i == 2 else 1) / scale for k in range(3)) for i in range(3)]
    shift = [part / 65536 for part in job.shift]
    position = tuple(-sum(rows[i][k] * shift[i] for i in range(3)) for k in range(3))
    return Camera(position, tuple(-part for part in rows[2]), rows[1])  # type: ignore[arg-type]


def load(path: str, words: Sequence[str]) -> Scene:
    """The scene of an OBJ file, whose libraries lie in its folder, with the camera of these words."""
    try:
        job = reference.job_of(["render", *words])
    except reference.Refusal as refusal:
        raise Fault(refusal.text) from None
    unit = 65536 * sum(part * part for part in job.turn)
    places: dict[Material, int] = {}
    triangles = []
    for corners, paint in agree.triangles_of_file(path):
        r, g, b = (part / 65535 for part in paint.colour)
        place = places.setdefault(Material((r, g, b), paint.alpha / 65535), len(places))
        seen = [reference.seen(job, corner) for corner in corners]
        a, b, c = ((x / unit, y / unit, -w / unit) for x, y, w in seen)
        triangles.append(Triangle((a, b, c), place))
    red, green, blue = (part / 65535 for part in job.background)
    options = reference.matches_of("render", list(words)) or {}
    kept = [f"--{name}={options[name]}" for name in KEPT if name in options]
    return Scene(os.path.abspath(path), kept, job.width, job.height, (red, green, blue), job.focal / 65536, job.near / 65536,
                 int(options.get("threads", 4)), list(places), triangles, camera_of(job))


# ---- runs


@dataclass
class Run:
    """What a run took, and what it wrote."""

    seconds: float  # from its start to its end
    processor: float  # seconds of all its threads
    peak: int  # KiB that its largest process had in memory
    status: int | None = 0  # below 0 for a signal, None where time ran out
    out: bytes = b""
    error: str = ""
    drawing: float | None = None  # seconds that the drawing alone took, where the renderer can tell

    def figures(self) -> dict[str, float]:
        told = {"seconds": self.seconds, "processor": self.processor, "peak": self.peak}
        return told if self.drawing is None else {**told, "drawing": self.drawing}

    def last_line(self) -> str:
        """What it said at its end."""
        return next((line.strip() for line in reversed(self.error.splitlines()) if line.strip()), "")

    def why(self) -> str:
        """How it ended, in one line."""
        if self.status is None:
            return "it didn't end in time"
        if self.status < 0:
            return f"ended by {signal.Signals(-self.status).name}"
        return self.last_line() or f"status {self.status}"


def call(command: Sequence[str], data: bytes = b"", variables: dict[str, str] | None = None, limit: float | None = None,
         memory: float | None = None, folder: str | None = None) -> Run:
    """Runs a program to its end. With a limit in seconds it leads a group of processes, all of which end with it; memory is in GiB."""
    with tempfile.TemporaryFile() as given, tempfile.TemporaryFile() as out, tempfile.TemporaryFile() as error, \
            tempfile.NamedTemporaryFile("r") as figures:
        given.write(data)
        given.seek(0)
        words = [sys.executable, "-I", "-S", LAUNCHER, figures.name, str(int((memory or 0) * GIB)), *command]
        began = time.perf_counter()
        child = subprocess.Popen(words, stdin=given, stdout=out, stderr=error, cwd=folder, env={**os.environ, **(variables or {})},
                                 start_new_session=limit is not None)
        is_over = False
        try:
            child.wait(limit)
            is_over = True
        except subprocess.TimeoutExpired:
            pass
        finally:
            if limit is not None:  # also where this is interrupted, so that nothing stays behind
                end_group(child.pid)
                child.wait()
        out.seek(0)
        error.seek(0)
        told, text = out.read(), error.read().decode(errors="replace")[-MOST_TEXT:]
        parts = figures.read().split()
        if not is_over or len(parts) != 4:
            return Run(time.perf_counter() - began, 0, 0, None if not is_over else -signal.SIGKILL, told, text)
        return Run(float(parts[0]), float(parts[1]), int(parts[2]), int(parts[3]), told, text)


def end_group(leader: int) -> None:
    """Ends what a program may have left running."""
    try:
        os.killpg(leader, signal.SIGKILL)
    except (ProcessLookupError, PermissionError):
        pass


def run(command: Sequence[str], data: bytes = b"", **variables: str) -> Run:
    """The run of a renderer, or that it failed."""
    if shutil.which(command[0]) is None:
        raise Cant(f"{command[0]} isn't there; --info tells what to install")
    done = call(command, data, variables)
    if done.status != 0:
        raise Failed(f"{os.path.basename(command[0])}: {done.why()}")
    return done


# ---- a script


@dataclass
class Info:
    name: str
    version: str
    device: str = ""  # what it draws on, such as a driver


def needs(program: str, package: str) -> str:
    """The path of a program, or what to install."""
    path = shutil.which(program)
    if path is None:
        raise Cant(f"install Debian's package {package}")
    return path


def version(command: Sequence[str], package: str, pattern: str) -> str:
    """The first group of the pattern in what a program says, or what to install."""
    done = subprocess.run([needs(command[0], package), *command[1:]], capture_output=True, text=True, errors="replace")
    found = re.search(pattern, done.stdout + done.stderr)
    return found.group(1) if found else "of unknown version"


def answer(info: Callable[[], Info], draw: Callable[[Scene, str], Run | None], words: Sequence[str]) -> int:
    """Does what the words of a script ask for."""
    if list(words) == ["--info"]:
        print(json.dumps(asdict(info())))
        return DRAWN
    if len(words) < 2 or words[0].startswith("-"):
        print(__doc__ if "--help" in words else "words: --info, or SCENE.obj IMAGE WORDS..; --help tells more",
              file=sys.stdout if "--help" in words else sys.stderr)
        return DRAWN if "--help" in words else 2
    scene, image = load(words[0], words[2:]), os.path.abspath(words[1])
    with tempfile.TemporaryDirectory(prefix="renderer-") as folder:
        os.chdir(folder)
        done = draw(scene, image)
        os.chdir(HERE)
    if not os.path.exists(image):
        raise Failed("no image was written")
    if done is not None:
        print(json.dumps(done.figures()))
    return DRAWN


def main(info: Callable[[], Info], draw: Callable[[Scene, str], Run | None]) -> NoReturn:
    """A script: info tells what the renderer is, and draw writes the image. It is called in an empty folder."""
    try:
        status = answer(info, draw, sys.argv[1:])
    except Cant as why:
        print(why, file=sys.stderr)
        status = CANT
    except Failed as why:
        print(why, file=sys.stderr)
        status = FAILED
    except (Fault, OSError) as why:
        print(why, file=sys.stderr)
        status = 2
    sys.stdout.flush()
    sys.exit(status)
