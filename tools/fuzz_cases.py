"""Random and broken cases for fuzz.py: words, a scene, its libraries and a path.

The seed and the number of a case decide it, so each case can be made again by itself.
"""

import os
import random
from dataclasses import dataclass

from abuflib.program import EXAMPLES
from abuflib.scene import MOST_BYTES

FARTHEST = 32767.9999


@dataclass
class Case:
    kind: str  # what the scene was before it was damaged
    words: list  # of bytes
    place: int  # where the word --threads=N goes; None where the words have their own or none
    scene: bytes
    libraries: dict  # by name, and with them the path of a sequence
    memory: int  # KiB beyond the start of the program, for one more run; None for no such run

    def words_for(self, threads):
        if self.place is None:
            return self.words
        return self.words[:self.place] + [b"--threads=%d" % threads] + self.words[self.place:]


def make(seed, number):
    return Maker(random.Random(f"{seed} {number}")).case()


# ---- what the cases are made of

# Values at the ends of their ranges and just past them, and values out of form.
VALUES = {
    "size": ["1x1", "4096x1", "1x4096", "0004x0004", "00004x4", "4097x1", "0x1", "1x0", "4X4", "x",
             "4x", "4096x1025", "4x4x4", "-4x4", " 4x4", "4x4 ", ""],
    "samples": ["1", "2", "4", "8", "16", "0", "3", "32", "01", "16 ", "+4", ""],
    "threads": ["1", "64", "65", "0", "01", "001", "-1", "4.0", ""],
    "nodes": ["1", "0000100", "00000100", "0", "8388608", "8388609", "9999999", "-1", "1e3", ""],
    "turn": ["1024,-1024,1024,-1024", "1025,0,0,0", "0,0,0,0", "0,0,0,1", "-0,0,0,-0", "-0,1,0,0",
             "0001,0,0,0", "00001,0,0,0", "1,2,3", "1,2,3,4,5", ",,,", "+1,0,0,0", ""],
    "move": ["0,0,0", "32767.99999,-32767.99999,32767.99999", "32768,0,0", "1e4,1e-9,-1e4", "0,0",
             "0,0,0,0", "nan,0,0", "0,0,-1e999", "0,0,1e-999", "0,0,-1e1000", ""],
    "focal": ["16", "16.00001", "16.0000076", "1e-5", "7.6e-6", "7.7e-6", "0", "-1", "1.e0", ""],
    "near": ["0.0625", "0.06249", "0.0624924", "32767.99999", "32768", "3", "4", "0", "-1", ""],
    "background": ["1,1,1", "-1,2,1e3", "0.5,.5,5e-1", "32768,32768,32768", "32769,0,0", "1,1",
                   "1,1,1,1", "#fff", ""],
    "maxval": ["255", "65535", "256", "0", "0255", "65536", ""],
    "bands": ["1", "0001", "00001", "0", "17", "4096", "4097", "9999", "-1", "1.0", ""],
}
POSITIONALS = {
    b"pick": ["0,0", "3,3", "0000,0", "00000,0", "4095,4095", "9999,9999", "1", "1,1,1", "1;1",
              "-1,0", "+1,0", ""],
    b"sequence": ["path", "./path", "a.path", "no/path", "path/x", ".", "..", "/", "", "-", "-path",
                  "\u00e9", "x" * 300, "/dev/null", "scene.obj"],
    b"demo": ["1", "000001", "0000001", "0", "200000", "200001", "999999", "1.0", "-1", "x", ""],
}
ODD_WORDS = [b"--", b"-", b"", b"-h", b"--help", b"-V", b"--version", b"help", b"render", b"--size",
             b"--size=", b"--Size=4x4", b"--siz=4x4", b"-s", b"--=", b"--=1", b"--size==4x4",
             b"---size=4x4", b"--size =4x4", b"@scene.obj", b"\xff", b"--size=\xff", b"\xc3\xa9",
             b"--render", b"scene.obj", b"--samples", b"4", b"\xef\xbb\xbfrender", b"\n", b"$HOME"]

# Texts of numbers: odd ones that are taken, some that are at a limit, and some that are refused.
NUMBERS = ["0", "-0", "+1", ".5", "-1.", "+2.50", "1E+0", "1e-3", "000000001.5", "0e999", "1e-999",
           "0.00000762939453125", "0.0000076293945312", "32767.99999", "-32767.99999",
           "32767.99999237060546875", "3276799999e-5", "0." + "3" * 29, "1" + "0" * 29 + "e-29"]
BAD_NUMBERS = ["32767.999993", "32768", "-32768", "1e999", "1e1000", "1e-1000", "0." + "3" * 30,
               ".", "+", "-", "1e", "1e+", "e5", "0x1", "nan", "inf", "--1", "1.2.3", "1,5", "1_0",
               "1f", "\u0661", "1\0", "1#"]
INDICES = ["{}", "{}/", "{}//", "{}/1", "{}/1/2", "{}//-3", "{}/0/", "000000{}"]
BAD_INDICES = ["0", "-0", "+1", "1/x", "1/1/1/1", "00000000001", "9999999999", "-9999999999",
               "4294967297", "18446744073709551617", "1.0", "/1", "-", "1\0", "\u0661"]
KEYWORDS = [b"vt 0 0", b"vn 0 0 1", b"vp 0", b"o part", b"g a b", b"s off", b"l 1 2", b"p 1", b"",
            b"#", b"# f 1 2 3", b"  \t\r", b"V 0 0 0", b"v1 0 0 0", b"lod 3", b"!", b"~ \xff"]
BAD_KEYWORDS = [b"cstype bezier", b"deg 3", b"curv2 1", b"surf 0 1 0 1 1", b"end", b"call x.obj",
                b"\xef\xbb\xbfv 0 0 0", b"v\0 0 0 0", b"\x0bv 0 0 0", b"v\x0c0 0 0", b"\xff\xfe",
                b"\x7f", b"v\xa00 0 0", b"\xc3\xa9 1", b"usemtl", b"mtllib \t"]
NAMES = [b"red", b"blue glass", b"#1", b"a#b", b"\xc3\xa9", b"\xff\xfe", b"x" * 300, b"\\", b"\0"]
PATHS = [b"./a.mtl", b"no.mtl", b"no/a.mtl", b"a.mtl/b", b".", b"..", b"/", b"a\0b", b"\xff.mtl",
         b"x" * 300, b"scene.obj", b"../a.mtl", b"*"]
# Lines of paths that are taken, and some that aren't.
SHOTS = ["1 0 0 0 0 0 -4", "0 0 1 0 0 0 -4", "-0 0001 0 -0 .5 -1. 1e-3", "1024 -1024 1 -1 0 0 0",
         "8 2 -3 0 0.3 -0.2 -6", "1 1 0 0 32767.99999 0 -32767.99999", "\t3\r0  1 0\t0 0 -1e1 ",
         "0 1 0 0 0 0 -4 # half a turn", "1 0 0 0 0 0 -4 #", "1 0 0 0 0 0 -4\r", "", "#", "# 1 2 3",
         " \t\r ", "#1 0 0 0 0 0 -4"]
BAD_SHOTS = ["1", "1 0 0 0 0 0", "1 0 0 0 0 0 -4 0", "1 0 0 0 0 0 # -4", "0 0 0 0 0 0 -4",
             "1025 0 0 0 0 0 -4", "+1 0 0 0 0 0 -4", "00001 0 0 0 0 0 -4", "1.0 0 0 0 0 0 -4",
             "1 0 0 0 0 0 x", "1 0 0 0 0 32768 -4", "1,0,0,0 0,0,-4", "1 0 0 0 0 0 -4\0",
             "\ufeff1 0 0 0 0 0 -4", "0 0 0 0 0 0 x", "0 0 0 0 0 0", "1 0 0 - 0 0 -4", "\\",
             "1 0 0 0\x0b0 0 -4", "1 0 0 0 0 0 nan", "\u0661 0 0 0 0 0 -4"]
PIECES = [b"\0", b"\xff", b"\x80", b"\xef\xbb\xbf", b"\xc3\x28", b"\r", b"\n", b"\t", b" ", b"#",
          b"/", b"-", b"+", b".", b"e", b"0", b"9" * 40, b"\\\n", b"\x0b", b"\x85", b"v ", b"f ",
          b"usemtl ", b"\nf 1 2 3\n", b"\nv 0 0 0\n", b"\nnewmtl\n", b"nan", b"\x1a"]

KINDS = {"plain": 22, "deep": 12, "grammar": 20, "noise": 6, "example": 6, "limit": 3, "demo": 4}
HEAVY_ONE_IN = 10000


class Maker:
    """Makes one case, all of whose choices come from one generator of random numbers."""

    def __init__(self, rng):
        self.rng = rng
        self.libraries = {}
        self.options = {}

    def chance(self, percent):
        return self.rng.random() * 100 < percent

    def logarithmic(self, low, high):
        """A whole number from low to high, as often from 1 to 10 as from 10 to 100."""
        return min(high, int(low * (high / low + 1) ** self.rng.random()))

    def case(self):
        rng = self.rng
        kind = rng.choices(list(KINDS), KINDS.values())[0]
        if rng.randrange(HEAVY_ONE_IN) == 0:
            kind = "heavy"
        self.command = b"demo" if kind == "demo" else rng.choice(
            [b"render", b"render", b"render", b"pick", b"pick", b"sequence", b"sequence"])
        self.choose_size()
        scene = getattr(self, kind)()
        if self.chance(20) and kind != "heavy":
            scene = self.damaged(scene)
        if self.command == b"sequence":
            self.libraries["path"] = self.path(len(scene) < 2000)
        if self.chance(2) and kind != "heavy":
            scene = self.stretched(scene)
        for name in sorted(self.libraries):
            if self.chance(12):
                self.libraries[name] = self.damaged(self.libraries[name])
        words, place = self.words()
        is_short = self.chance(10) and sum(len(word) + 9 for word in words) < 2000
        memory = self.logarithmic(8, 16384) if is_short else None
        return Case(kind, words, place, scene, self.libraries, memory)

    def stretched(self, scene):
        """The scene with comments between its lines, so many that it is read in pieces."""
        rng = self.rng
        lines = scene.split(b"\n")
        comment = b"#" + b"-" * rng.randint(0, 900) + b"\n"
        left = rng.randint(270000, 900000) // len(comment)
        for place in rng.sample(range(len(lines)), min(len(lines), rng.randint(1, 30))):
            count = rng.randint(left // 4, left)
            lines[place] = comment * count + lines[place]
            left -= count
        lines[0] = comment * left + lines[0]
        return b"\n".join(lines)

    # words

    def choose_size(self):
        rng = self.rng
        self.width, self.height = rng.randint(1, 16), rng.randint(1, 16)
        if self.chance(1):
            self.width, self.height = rng.choice([(200, 100), (4096, 1), (1, 4096), (640, 480)])
        if rng.randrange(3000) == 0:
            self.width, self.height = rng.choice([(4096, 1024), (2048, 2048), (1024, 4096)])

    def words(self):
        """The words, and the place of the threads."""
        rng = self.rng
        self.options["size"] = f"{self.width}x{self.height}"
        for name in ("samples", "turn", "move", "focal", "near", "background", "maxval"):
            is_taken = self.command != b"sequence" or name not in ("turn", "move")
            if self.chance(25) and is_taken:
                self.options.setdefault(name, self.value(name))
        if not self.chance(2):
            self.options.setdefault("nodes", self.value("nodes"))
        if self.command == b"render" and self.chance(15):
            self.options.setdefault("bands", str(rng.randint(1, self.height)))
        if self.chance(8):
            name = rng.choice(list(VALUES))
            self.options[name] = rng.choice(VALUES[name])
        words = []
        for name, value in rng.sample(list(self.options.items()), len(self.options)):
            if value.startswith("-") or self.chance(50):
                words.append(f"--{name}={value}".encode())
            else:
                words += [f"--{name}".encode(), value.encode()]
        if self.command == b"render" and self.chance(1 if "bands" in self.options else 12):
            words.append(b"--peel")
        if self.command != b"render":
            self.put(words, self.positional().encode())
        words.insert(0, self.command)
        place = 1 if b"--" in words or self.chance(50) else len(words)
        if "threads" in self.options:
            place = None
        if self.chance(6):
            words = self.broken(words)
        return words, place

    def put(self, words, positional):
        """Puts the value without a name before or behind the options."""
        if self.chance(10):
            words += [b"--", positional]
        else:
            words.insert(self.rng.choice([0, len(words)]), positional)

    def positional(self):
        if self.chance(5):
            return self.rng.choice(POSITIONALS[self.command])
        if self.command == b"demo":
            return str(self.logarithmic(1, 300))
        if self.command == b"sequence":
            return "path"
        return f"{self.rng.randrange(self.width)},{self.rng.randrange(self.height)}"

    def value(self, name):
        """A value that is taken."""
        rng = self.rng
        if name == "samples":
            return rng.choice(["1", "2", "4", "8", "16"])
        if name == "nodes":
            return "8388608" if rng.randrange(500) == 0 else str(self.logarithmic(4, 200000))
        if name == "turn":
            return rng.choice(["0,0,1,0", "1,1,0,0", "8,2,-3,0", "1024,1024,1024,1024"] + [
                ",".join(str(rng.randint(-1024, 1024)) for _ in range(3)) + ",1"])
        if name == "move":
            return rng.choice(["0,0,0", "0,0,-1", "0.3,-0.2,-6", "1e-5,0,-0.125", "0,0,-32767",
                               "32767.99999,0,32767.99999"])
        if name == "focal":
            return rng.choice(["0.5", "2", "16", "1.6e-5", "15.99999"])
        if name == "near":
            return rng.choice(["0.0625", "1", "3.99999", "4", "32767.99999"])
        if name == "background":
            return rng.choice(["1,1,1", "0.5,0.25,0", "9,-9,1e-3"])
        return rng.choice(["255", "65535"])

    def broken(self, words):
        """The words with one thing wrong, or odd."""
        rng = self.rng
        words = list(words)
        place = rng.randrange(len(words))
        kind = rng.randrange(9)
        if kind == 0:
            del words[place]
        elif kind == 1:
            words.insert(rng.randint(0, len(words)), words[place])
        elif kind == 2:
            words[place] = self.damaged(words[place]).replace(b"\0", b"0")[:100000]
        elif kind == 3:
            words[place] = words[place][:rng.randrange(len(words[place]) + 1)]
        elif kind == 4:
            words = rng.sample(words, len(words))
        elif kind == 5 and self.chance(20):
            words.append((rng.choice([b"x", b"--size=", b"\xff", b"0"]) * 100000)[:100000])
        elif kind == 6 and self.chance(20):
            words += rng.choice([[b"--"], [b"x"], [b"--size=4x4"], [b""]]) * 3000
        else:
            words.insert(rng.randint(0, len(words)), rng.choice(ODD_WORDS))
        return words

    # points

    def spelled(self, value):
        """One of the texts of a number."""
        value = max(-FARTHEST, min(FARTHEST, value))
        return self.rng.choice(["{:.6f}", "{:.5f}", "{:+.4f}", "{:.9e}", "{:.9g}"]).format(value)

    def corners(self):
        """Three points, many of them hard to draw."""
        rng = self.rng
        reach = rng.choice([3, 3, 3, 0.5, 1e-3, 3e-5, 100, FARTHEST])
        points = [[rng.uniform(-reach, reach) for _ in range(3)] for _ in range(3)]
        kind = rng.randrange(10)
        if kind == 0:  # at one distance, often that of the near plane or of the camera
            for point in points:
                point[2] = 4 - rng.choice([0, 0.125, 0.0625, 1e-5])
        elif kind == 1:  # behind the camera, and maybe in front of it too
            for point in points[:rng.randint(1, 3)]:
                point[2] = rng.choice([4, 4.1, 100, FARTHEST])
        elif kind == 2:  # edge on: in one plane with the camera
            along, across = points[0], points[1]
            for i in range(3):
                a, b = rng.uniform(-1, 1), rng.uniform(-1, 1)
                points[i] = [a * x + b * y for x, y in zip(along, across)]
                points[i][2] += 4
        elif kind == 3:  # without area, or nearly so
            a, b, _ = points
            t, off = rng.choice([0, 1, 0.5, rng.random()]), rng.choice([0, 0, 2e-5])
            points[2] = [x + t * (y - x) + off for x, y in zip(a, b)]
        elif kind == 4:  # a sliver, or a spike to the farthest point
            points[1] = [x + rng.choice([-2e-5, 0, 2e-5]) for x in points[0]]
            if self.chance(50):
                points[2] = [rng.choice([-FARTHEST, FARTHEST]) for _ in range(3)]
        elif kind == 5:  # over the whole image, close to the camera
            points = [[-9, 9, 3.5], [27, 9, 3.5 - rng.random()], [-9, -27, 3.5]]
        return points

    def vertex(self, point):
        return ("v " + " ".join(self.spelled(part) for part in point)).encode()

    # kinds of scenes

    def plain(self):
        """Triangles of all kinds, with materials."""
        rng = self.rng
        lines, names = [], []
        if self.chance(50):
            names = self.paints(lines)
        for _ in range(self.logarithmic(1, 40)):
            lines += map(self.vertex, self.corners())
            if names and self.chance(60):
                lines.append(b"usemtl " + rng.choice(names))
            lines.append(rng.choice([b"f -3 -2 -1", b"f -1 -2 -3", b"f 1 -2 -1"]))
        return self.ended(lines)

    def deep(self):
        """Very many faces over the same few points, on few pixels."""
        rng = self.rng
        self.width, self.height = rng.randint(1, 3), rng.randint(1, 3)
        lines, names = [], []
        if self.chance(70):
            names = self.paints(lines)
        count = 3 * rng.randint(1, 8)
        for _ in range(count // 3):
            corners = [[x, y, rng.uniform(-3, 3)] for x, y in ((-9, 9), (27, 9), (-9, -27))]
            lines += map(self.vertex, self.corners() if self.chance(40) else corners)
        left = self.logarithmic(20, 4000)
        while left > 0:
            if names:
                lines.append(b"usemtl " + rng.choice(names))
            length = min(1024, self.logarithmic(3, 200))
            lines.append(b"f " + b" ".join(b"%d" % rng.randint(1, count) for _ in range(length)))
            left -= length - 2
        if self.chance(60):
            self.options["nodes"] = str(self.logarithmic(1000, 60000))
        return self.ended(lines)

    def grammar(self):
        """Lines of every keyword, in odd forms; more or fewer of them are wrong."""
        rng = self.rng
        worst = rng.choice([0, 0, 1, 5, 30])  # percent
        names = self.paints([]) if self.chance(50) else []
        lines = [b"mtllib " + name.encode() for name in self.libraries]
        lines += [b"v 0 1 0", b"v 1 -1 0", b"v -1 -1 0"] if self.chance(70) else []
        points = len(lines) - len(self.libraries)
        for _ in range(self.logarithmic(3, 60)):
            kind = rng.randrange(12)
            if kind < 4:
                numbers = [self.number(worst) for _ in range(3)] + ["#"] * self.chance(5)
                lines.append(("v " + " ".join(numbers)).encode())
                points += 1
            elif kind < 8 and points:
                lines.append(self.face(points, worst))
            elif kind == 8 and (names or self.chance(worst)):
                is_odd = not names or self.chance(worst)
                lines.append(b"usemtl " + rng.choice(NAMES if is_odd else names))
            elif kind == 9 and self.chance(worst):
                lines.append(b"mtllib " + rng.choice(PATHS))
            else:
                lines.append(rng.choice(BAD_KEYWORDS if self.chance(worst) else KEYWORDS))
        return self.ended(lines)

    def number(self, worst):
        if self.chance(80):
            return self.spelled(self.rng.uniform(-4, 4))
        return self.rng.choice(BAD_NUMBERS if self.chance(worst) else NUMBERS)

    def face(self, points, worst):
        rng = self.rng
        length = rng.randint(0, 2) if self.chance(worst / 2) else rng.choice([3, 3, 3, 4, 5, 9])
        elements = []
        for _ in range(length):
            index = rng.randint(1, points)
            form = rng.choice(BAD_INDICES if self.chance(worst / 4) else INDICES)
            if self.chance(40):
                index, form = index - points - 1, form.replace("0", "")
            elements.append(form.format(index))
        return ("f " + rng.choice([" ", "  ", "\t", " \r"]).join(elements)).encode()

    def noise(self):
        """Random bytes of one of several alphabets."""
        rng = self.rng
        alphabet = rng.choice([bytes(range(256)), b"vf 0123456789.-/e\n\n", b"v 1\n", b"\n\r\t ",
                               b"\0\n", b"mtlibusenw \n#v", b"\xff\xfe\xc3\n "])
        return bytes(rng.choices(alphabet, k=self.logarithmic(1, 3000) - 1))

    def example(self):
        """One of the examples, always damaged."""
        name = self.rng.choice(["cube", "films", "panes", "crossing", "lantern"])
        with open(os.path.join(EXAMPLES, name + ".obj"), "rb") as file:
            scene = file.read()
        with open(os.path.join(EXAMPLES, name + ".mtl"), "rb") as file:
            self.libraries[name + ".mtl"] = file.read()
        self.width, self.height = 2 * self.width, 2 * self.height
        return self.damaged(scene)

    def demo(self):
        """Any bytes: demo reads no scene."""
        return self.noise()

    def ended(self, lines):
        """The text of the lines, with one of the ends of lines."""
        end = self.rng.choice([b"\n"] * 8 + [b"\r\n", b" \n"])
        return end.join(lines) + (b"" if self.chance(10) else end)

    # libraries

    def paints(self, lines):
        """The names of materials in one to three new libraries, whose lines are added."""
        rng = self.rng
        names = [b"m%d" % i for i in range(rng.randint(1, 6))]
        if self.chance(20):
            names.append(rng.choice(NAMES))
        for library in ["a.mtl", "b c.mtl", "\u00e9#.mtl"][:rng.choice([1, 1, 1, 2, 3])]:
            text = []
            for name in names if not self.libraries else rng.sample(names, 1):
                text.append(b"newmtl " + name)
                text += [self.paint_line() for _ in range(rng.randint(0, 3))]
            self.libraries[library] = self.ended(text)
            lines.append(b"mtllib " + library.encode())
        if self.chance(5):
            lines.insert(rng.randint(0, len(lines)), b"mtllib " + rng.choice(PATHS))
        return names

    def paint_line(self):
        rng = self.rng

        def share():
            return rng.choice(NUMBERS) if self.chance(5) else f"{rng.uniform(-0.2, 1.2):.4f}"

        form = rng.choice(["Kd {} {} {}", "Kd {} {} {} {}", "Kd {}", "d {}", "d {}", "\td {} # {}",
                           "Ns {}", "illum 2"])
        return form.format(*(share() for _ in range(4))).encode()

    # paths

    def path(self, may_be_long):
        """The lines of a path: mostly a few that are taken, or the most that are, or one more."""
        rng = self.rng
        if may_be_long and self.chance(5):
            self.width, self.height = rng.randint(1, 2), rng.randint(1, 2)
            self.options.update(size=f"{self.width}x{self.height}", nodes=str(rng.randint(1, 300)))
            lines = [rng.choice([SHOTS[0], SHOTS[1]])] * (4096 + rng.randint(0, 1))
            for _ in range(rng.randint(0, 3)):
                lines.insert(rng.randint(0, len(lines)), rng.choice(["", "# x", "\t"]))
            return self.ended([line.encode() for line in lines])
        if self.chance(2):
            return self.ended([b"#" + b"x" * (1048574 + rng.randint(0, 2))])
        if self.chance(4):
            return self.noise()
        worst = rng.choice([0, 0, 0, 1, 10])
        lines = [self.shot(worst) for _ in range(rng.choice([0, 1, 1, 2, 2, 3, 4, 9]))]
        return self.ended([line.encode() for line in lines])

    def shot(self, worst):
        """A line of a path; in so many percent one that isn't taken."""
        if self.chance(worst):
            return self.rng.choice(BAD_SHOTS)
        if self.chance(40):
            return self.rng.choice(SHOTS)
        parts = self.value("turn").split(",") + self.value("move").split(",")
        if self.chance(worst):
            self.rng.shuffle(parts)
        return self.rng.choice([" ", " ", "  ", "\t", " \r"]).join(parts)

    # limits

    def limit(self):
        """As much of something as is taken, or one more; or a line that is very long."""
        rng = self.rng
        more = rng.randint(0, 1)
        points = [b"v 0 1 0", b"v 1 -1 0", b"v -1 -1 0"]
        kind = rng.randrange(7)
        if kind == 0:
            return self.ended(points + [b"f" + b" 1 2 3" * 341 + b" 1" * (1 + more)])
        if kind == 1:
            for i in range(16 + more):
                self.libraries[f"{i}.mtl"] = b"newmtl %d\n" % i
            lines = [b"mtllib %d.mtl" % i for i in range(16 + more)]
            return self.ended(rng.sample(lines, len(lines)) + lines + points + [b"f 1 2 3"])
        if kind == 2:
            return self.ended([b"usemtl %d" % i for i in range(4096 + more)] * 2)
        if kind == 3:
            names = [b"newmtl %d" % i for i in range(4096 + more)]
            self.libraries = {"a.mtl": self.ended(names[:2000]), "b.mtl": self.ended(names[1000:])}
            return self.ended([b"mtllib a.mtl", b"mtllib b.mtl", *points, b"usemtl 7", b"f 1 2 3"])
        length = self.logarithmic(1000, 1000000)
        filler = rng.choice([b"x", b" ", b"9", b"\0", b"\xff", b"1 ", b"#", b"/", b"-"]) * length
        start = rng.choice([b"", b"# ", b"v 0 0 0 ", b"v ", b"f 1 2 3 ", b"f ", b"g ", b"usemtl ",
                            b"mtllib ", b"\t"])
        return self.ended(points + [start + filler, b"f 1 2 3"])

    def heavy(self):
        """A limit that takes seconds to reach, or one more."""
        rng = self.rng
        more = rng.randint(0, 1)
        self.width, self.height = rng.randint(1, 4), rng.randint(1, 4)
        points = b"v 0 1 0\nv 1 -1 0\nv -1 -1 0\n"
        kind = rng.randrange(4)
        if kind == 0:
            return b"v 0 0 0\n" * (1048576 + more) + b"f 1 2 1048576\n"
        if kind == 1:  # 1026 faces of 1022 triangles, and one of four or five
            longest = b"f" + b" 1 2 3" * 341 + b" 1\n"
            return points + longest * 1026 + b"f 1 2 3 1 2 3" + b" 1" * more
        if kind == 2:
            return b"#" * (MOST_BYTES + more - len(points)) + points
        self.libraries = {"a.mtl": b"#" * (MOST_BYTES + more)}
        return b"mtllib a.mtl\n" + points + b"f 1 2 3\n"

    # damage

    def damaged(self, data):
        """The bytes with one to four things changed."""
        for _ in range(self.rng.randint(1, 4)):
            data = self.rng.choice([self.with_other_bytes, self.with_other_pieces,
                                    self.with_other_lines])(bytearray(data))
        return bytes(data)

    def with_other_bytes(self, data):
        rng = self.rng
        for _ in range(rng.choice([1, 1, 2, 10]) if data else 0):
            place = rng.randrange(len(data))
            data[place] = rng.choice([data[place] ^ 1 << rng.randrange(8), rng.randrange(256)])
        return data

    def with_other_pieces(self, data):
        """A piece is put in, taken out, doubled, or everything behind a place cut off."""
        rng = self.rng
        place = rng.randint(0, len(data))
        end = min(len(data), place + self.logarithmic(1, 200))
        kind = rng.randrange(6)
        if kind == 0:
            del data[place:end]
        elif kind == 1:
            data[place:place] = data[place:end]
        elif kind == 2 and self.chance(30):
            del data[place:]
        elif kind == 3 and self.chance(20):
            data[place:place] = rng.choice(PIECES) * self.logarithmic(1, 5000)
        else:
            data[place:place] = rng.choice(PIECES)
        return data

    def with_other_lines(self, data):
        """A line is taken out, doubled or moved, or has another token."""
        rng = self.rng
        lines = bytes(data).split(b"\n")
        place = rng.randrange(len(lines))
        kind = rng.randrange(4)
        if kind == 0:
            del lines[place]
        elif kind == 1:
            lines.insert(rng.randint(0, len(lines)), lines[place])
        elif kind == 2:
            lines.insert(rng.randint(0, len(lines) - 1), lines.pop(place))
        else:
            tokens = lines[place].split(b" ")
            other = rng.choice([NUMBERS, BAD_NUMBERS, BAD_INDICES])
            tokens[rng.randrange(len(tokens))] = rng.choice(other).encode()
            lines[place] = b" ".join(tokens)
        return b"\n".join(lines)
