"""What the scenes of all subjects are made with.

A `Drawing` takes points by their place in the image, in pixels from its top left corner. Its scene
is seen from H/2 away by --move=-W/2,H/2,-H/2, so that the point (x, -y, 0) of the file lies x
pixels from the left and y from the top. All places are multiples of 1/256 pixel unless a scene is
about rounding, so where a point lies on the screen is exact.
"""

import textwrap
from dataclasses import dataclass, field

NODES = 65536  # a small pool, since clearing a large one would take most of a run

# Opaque paints, and films of the same colours that hold back one half.
COLOURS = {
    "white": "1 1 1", "grey": "0.5 0.5 0.5", "black": "0 0 0", "red": "1 0 0",
    "green": "0 1 0", "blue": "0 0 1", "yellow": "1 1 0", "cyan": "0 1 1", "magenta": "1 0 1",
}
PAINTS = "# Opaque paints, and films of the same colours.\n" + "".join(
    f"newmtl {name}\nKd {colour}\nnewmtl {name}_film\nKd {colour}\nd 0.5\n"
    for name, colour in COLOURS.items()
)

# Offsets of the samples in 1/16 pixel from the pixel's centre, x to the right and y downwards.
SAMPLES = {
    1: [(0, 0)],
    2: [(4, 4), (-4, -4)],
    4: [(-2, -6), (6, -2), (-6, 2), (2, 6)],
    8: [(1, -3), (-1, 3), (5, 1), (-3, -5), (-5, 5), (-7, -1), (3, 7), (7, -7)],
    16: [(1, 1), (-1, -3), (-3, 2), (4, -1), (-5, -2), (2, 5), (5, 3), (3, -5),
         (-2, 6), (0, -7), (-4, -6), (-6, 4), (-8, 0), (7, -4), (6, 7), (-7, -8)],
}

# Sixteen directions on the screen: along the axes, the diagonals, and two in each quadrant between.
DIRECTIONS = [(1, 0), (3, 1), (1, 1), (1, 3), (0, 1), (-1, 3), (-1, 1), (-3, 1),
              (-1, 0), (-3, -1), (-1, -1), (-1, -3), (0, -1), (1, -3), (1, -1), (3, -1)]


@dataclass
class Case:
    """A command and what it needs. What it must give is recorded, but for the text of a refusal."""

    name: str
    shows: str  # one sentence
    command: str  # as typed in the folder of the subject
    files: dict = field(default_factory=dict)  # those of the folder, by name
    status: int = 0
    error: str = None  # the line on standard error of a refusal


def number(value):
    """A decimal text of a number, exact for the binary fractions that are used here."""
    text = f"{value:.16f}".rstrip("0").rstrip(".")
    return "0" if text == "-0" else text


def lines(*texts):
    return "".join(text + "\n" for text in texts)


class Drawing:
    """A scene by the places of its points in the image."""

    def __init__(self, name, width, height, library="paints.mtl", library_text=PAINTS):
        self.name, self.width, self.height = name, width, height
        self.library, self.library_text = library, library_text
        self.body = []
        self.shows = None  # the sentence of the first case
        self.paint_now = None

    def note(self, text):
        self.body += ["", f"# {text}"]

    def paint(self, name):
        if name != self.paint_now:
            self.body.append(f"usemtl {name}")
            self.paint_now = name

    def point(self, x, y, away=1):
        """A point seen at a place; away is its distance over that of the plane z = 0."""
        right = (x - self.width / 2) * away + self.width / 2
        down = (y - self.height / 2) * away + self.height / 2
        towards = self.height / 2 * (1 - away)
        self.body.append(f"v {number(right)} {number(-down)} {number(towards)}")

    def face(self, *corners):
        """Points and a face of them."""
        for corner in corners:
            self.point(*corner)
        self.again(len(corners))

    def again(self, count):
        """A face of so many of the last points."""
        self.body.append("f " + " ".join(str(i) for i in range(-count, 0)))

    def square(self, left, top, right, bottom, away=1):
        """A square of two triangles that share the diagonal from the left top."""
        self.face((left, top, away), (right, top, away), (right, bottom, away),
                  (left, bottom, away))

    def words(self, command="render", samples=1, shift=(0, 0), nodes=NODES, more=""):
        x, y = -self.width / 2 + shift[0], self.height / 2 - shift[1]
        text = f"{command} --size {self.width}x{self.height}"
        if samples != 1:
            text += f" --samples {samples}"
        text += f" --move={number(x)},{number(y)},{number(-self.height / 2)} --nodes {nodes}"
        return text + (f" {more}" if more else "")

    def text(self):
        head = textwrap.wrap(self.shows, 98, initial_indent="# ", subsequent_indent="# ")
        return lines(*head, f"mtllib {self.library}", *self.body)

    def files(self):
        """The library alone, or with the scene where that has a name."""
        scene = {f"{self.name}.obj": self.text()} if self.name else {}
        return {**scene, self.library: self.library_text}

    def case(self, shows, name=None, status=0, error=None, **words):
        """A case of this scene. A shift moves it in the image, in pixels."""
        self.shows = self.shows or shows
        command = f"abuf {self.words(**words)} < {self.name}.obj"
        return Case(name or self.name, shows, command, self.files(), status, error)


def at_sample(samples, k):
    """How far sample k lies from the pixel's centre, in pixels."""
    right, down = SAMPLES[samples][k]
    return right / 16, down / 16
