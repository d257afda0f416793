#!/usr/bin/env python3
"""Compares abuf with the worked rows and with the reference.

    compare.py [--only rows | --only random] [--cases N] [--seed S] [--abuf PATH]
    compare.py --self                   the rows against reference.py itself

    compare.py --only random --cases 300 --seed 7

Each case runs in a folder of its own with its libraries. Status, standard output and standard
error are compared. Rows that fail are all told; random scenes end at the first that differs, which
is printed and, with --keep, written out. The seed decides the random scenes, so that a run can be
repeated. The status is 0 where all agree, and 1 otherwise.
"""

import contextlib
import os
import random
import sys
import tempfile

import reference
import rows as worked
from abuflib import program, report

REFERENCE = program.Program((sys.executable, reference.__file__))


# ---- running


@contextlib.contextmanager
def folder_of(row):
    """A new folder with the row's libraries."""
    with tempfile.TemporaryDirectory() as folder:
        for name, data in row.libraries.items():
            with open(os.path.join(folder, name), "wb") as file:
                file.write(data)
        yield folder


def run(found, row):
    """The status, output and message of a program on a row."""
    with folder_of(row) as folder, contextlib.ExitStack() as files:
        given = {"scene": row.scene}
        if row.stdin == "fault":
            given["scene"] = files.enter_context(open("/proc/self/mem", "rb"))
        if row.stdout == "full":
            given["out"] = files.enter_context(open("/dev/full", "wb", buffering=0))
        return found.run(row.words, folder=folder, **given)


def run_reference(row):
    """The same of the reference, in this process."""
    with folder_of(row) as folder:
        before = os.getcwd()
        os.chdir(folder)
        try:
            return reference.answer(row.words, lambda most: row.scene[:most],
                                    reference.fetch_from_folder)
        finally:
            os.chdir(before)


def short(data):
    return repr(data) if len(data) <= 400 else f"{data[:400]!r}.. ({len(data)} bytes)"


def differences(wanted, got):
    """What differs between two answers, as lines of text; None where nothing does."""
    told = []
    for name, a, b in zip(("status", "standard output", "standard error"), wanted, got):
        if a != b:
            a, b = (short(a), short(b)) if isinstance(a, bytes) else (a, b)
            told.append(f"  {name}: wanted {a}\n  {name}: got    {b}")
    return "\n".join(told) or None


# ---- random cases


class Maker:
    """Random small scenes and words, many of them with edges through samples."""

    def __init__(self, rng):
        self.rng = rng

    def chance(self, percent):
        return self.rng.randrange(100) < percent

    def case(self, number):
        rng = self.rng
        self.resize(rng.randint(1, 9), rng.choice([1, 2, 4, 4, 4, 8, 8, 3, 5, 7]))
        self.samples = str(rng.choice(sorted(reference.OFFSETS)))
        self.forced = {}
        libraries = {}
        lines = self.scene(libraries)
        scene = b"\n".join(lines) + (b"" if self.chance(5) else b"\n")
        if self.chance(12):
            scene = self.damaged(scene)
        if libraries and self.chance(8):
            name = rng.choice(sorted(libraries))
            libraries[name] = self.damaged(libraries[name])
        if libraries and self.chance(2):
            del libraries[rng.choice(sorted(libraries))]
        words = self.command(libraries)
        return worked.Row(f"random scene {number}", words, scene, libraries=libraries)

    def resize(self, width, height):
        self.width, self.height = width, height
        self.place = self.rng.randrange(width), self.rng.randrange(height)

    # words

    def command(self, libraries):
        """The words; the path of a sequence is put among the libraries."""
        rng = self.rng
        self.chance(95)  # drawn once more than is needed, so that a seed's scenes stay what they were
        texts = {"size": f"{self.width}x{self.height}"}
        if self.samples != "1":
            texts["samples"] = self.samples
        for name in sorted(set(reference.OPTIONS) - {"size", "samples"}):
            if self.chance(35):
                texts[name] = self.value(name)
        texts.update(self.forced)
        is_sequence = self.chance(15)
        if is_sequence and not self.chance(2):
            texts.pop("turn", None)
            texts.pop("move", None)
        if self.chance(4):
            name = rng.choice(sorted(texts))
            texts[name] = self.damaged(texts[name].encode()).decode(errors="ignore")
            texts[name] = texts[name].replace("\0", "0")
        groups = []
        for name, value in texts.items():
            joined = value.startswith("-") or self.chance(40)
            groups.append([f"--{name}={value}"] if joined else [f"--{name}", value])
        command = "render"
        if is_sequence:
            command = "sequence"
            libraries["a path"] = self.path()
            groups.insert(0, self.positional("a path"))
        elif self.chance(35):
            command = "pick"
            groups.insert(0, self.positional("{},{}".format(*self.place)))
        elif self.chance(3):
            command = "demo"
            groups.insert(0, self.positional(str(rng.randint(1, 30))))
        if command == "render" or self.chance(1):
            groups += self.storage()
        rng.shuffle(groups)
        groups.sort(key=lambda group: group[0] == "--")
        words = [word for group in groups for word in group]
        if self.chance(2):
            words.insert(rng.randrange(len(words) + 1), rng.choice(["--", "-", "x", "--size=1x1"]))
        return [command] + words

    def path(self):
        """The lines of a few shots, now and then damaged."""
        rng = self.rng
        lines = []
        for _ in range(rng.choice([0, 1, 1, 2, 2, 3, 4])):
            parts = self.value("turn").split(",") + self.value("move").split(",")
            lines.append(rng.choice([" ", " ", "  ", "\t", " \r"]).join(parts).encode())
            if self.chance(20):
                lines.append(rng.choice([b"", b"# a shot", b" \t\r", b"#1 0 0 0 0 0 0"]))
            if self.chance(10):
                lines[-1] += b" # " + lines[-1]
        path = b"\n".join(lines) + (b"" if self.chance(10) else b"\n")
        return self.damaged(path) if self.chance(15) else path

    def storage(self):
        """The words that say how the fragments are stored; now and then both, or bands of no row."""
        groups = []
        if self.chance(25):
            bands = self.rng.randint(1, self.height) if self.chance(95) else self.height + 1
            groups.append(["--bands", str(bands)])
        if self.chance(1 if groups else 20):
            groups.append(["--peel"])
        return groups

    def positional(self, text):
        """The words of a value without a name."""
        if self.chance(5):
            text = self.damaged(text.encode()).decode(errors="ignore").replace("\0", "0")
        return ["--", text] if self.chance(10) else [text]

    def value(self, name):
        rng = self.rng
        if name == "threads":
            return str(rng.choice([1, 2, 3, 7, 64]))
        if name == "nodes":
            return str(rng.choice([1, 5, 20, 60, 100, 200, 8388608]))
        if name == "turn":
            parts = [0, 0, 0, 0]
            while not any(parts):
                parts = [rng.choice([0, 0, 1, -1, 2, 5, rng.randint(-1024, 1024)])
                         for _ in range(4)]
            return ",".join(str(part) for part in parts)
        if name == "move":
            near = rng.choice(["-4", "-4", "-2.5", "-1", "0"])
            return f"{rng.choice(['0', '0.3', '-1'])},{rng.choice(['0', '1e-1'])},{near}"
        if name == "focal":
            return rng.choice(["1", "0.5", "2", "16", "1e-4", "0.999"])
        if name == "near":
            return rng.choice(["0.125", "0.0625", "0.5", "1", "3"])
        if name == "background":
            return rng.choice(["1,1,1", "0.5,0.25,0", "9,-9,1e-3"])
        return rng.choice(["255", "65535", "65535"])

    # points

    def places(self):
        """Coordinates from the middle of the image in 1/256 pixel, often those of samples."""
        rng = self.rng
        x = rng.randint(-self.width - 2, self.width + 2) * 128
        y = rng.randint(-self.height - 2, self.height + 2) * 128
        kind = rng.randrange(4)
        if kind == 0:
            offset = rng.choice(reference.OFFSETS[int(self.samples)])
            x, y = x + 16 * offset[0], y + 16 * offset[1]
        elif kind == 1:
            x, y = x + rng.randint(-128, 128), y + rng.randint(-128, 128)
        if self.chance(20):
            x, y = x + rng.choice([-0.5, 0.5]), y + rng.choice([-0.5, 0.5])
        return x, y

    def point(self, plane=None, grid=None):
        """The line of a point that the default camera shows at such a place. On a grid the rows and
        columns are few, so that many edges are level, upright or shared."""
        rng = self.rng
        x, y = (rng.choice(grid)[0], rng.choice(grid)[1]) if grid else self.places()
        away = plane if plane is not None else rng.choice([4, 4, 4, 2, 1, 6, 5.5])
        if plane is None and self.chance(12):
            return self.vertex(rng.randint(-400000, 400000), rng.randint(-400000, 400000),
                               int(65536 * rng.choice([3.875, 3.9, 4, 4.1, 5, 9])))
        return self.shown(x, y, away)

    def shown(self, x, y, away, focal=1):
        """The line of a point at a distance that the default camera shows at this place."""
        scale = away * 65536 / (128 * self.height * focal)
        return self.vertex(round(x * scale), round(-y * scale), round(65536 * (4 - away)))

    def vertex(self, *units):
        return ("v " + " ".join(self.number(value) for value in units)).encode()

    def number(self, units):
        """A text for a number of 1/65536."""
        rng = self.rng
        kind = rng.randrange(3)
        if kind == 0 and units % 65536 == 0:
            return str(units // 65536)
        if kind == 1:
            return f"{units * 5 ** 16}e-16"
        whole, part = divmod(abs(units), 65536)
        sign = "-" if units < 0 else rng.choice(["", "", "+"])
        return f"{sign}{whole}." + f"{part * 5 ** 16:016d}".rstrip("0")

    # scenes

    def scene(self, libraries):
        rng = self.rng
        lines, materials = [], []
        if self.chance(8):
            return self.steep_scene()
        if self.chance(10):
            return self.near_scene()
        if self.chance(80):
            materials = self.make_paints(lines, libraries)
        if self.chance(20):
            return lines + self.huge_scene(materials)
        if self.chance(30):
            return lines + rng.choice([self.crossing_scene, self.long_scene])(materials)
        if self.chance(10):
            return lines + self.thin_scene(materials)
        lines, materials = [], []
        libraries.clear()
        if self.chance(60):
            materials = self.make_libraries(lines, libraries)
        count = 0
        for _ in range(rng.randint(1, 4)):
            plane = rng.choice([None, 4, 4, 2])
            grid = [self.places() for _ in range(3)] if self.chance(50) else None
            points = [self.point(plane, grid) for _ in range(rng.randint(3, 7))]
            lines += points
            count += len(points)
            for _ in range(rng.randint(1, 3)):
                if materials and self.chance(80):
                    lines.append(b"usemtl " + rng.choice(materials))
                if self.chance(15):
                    lines.append(rng.choice([b"", b"# f 1 2 3", b"g all", b"vt 0 0", b"s off",
                                             b"\tvn 1 0 0\r", b"l 1 2", b"o #1"]))
                lines.append(self.face(count, len(points)))
        return lines

    def steep_scene(self):
        """Small triangles from the near plane to far away, within about a pixel, the picked one."""
        rng = self.rng
        lines = []
        for _ in range(rng.randint(1, 4)):
            column, row = self.place
            for _ in range(3):
                x = 256 * column + rng.randint(-40, 296) - 128 * self.width
                y = 256 * row + rng.randint(-40, 296) - 128 * self.height
                away = rng.choice([0.125, 0.125, 0.25, 500 * self.height])
                lines.append(self.shown(x, y, away))
            lines.append(b"f -1 -2 -3")
        return lines

    def crossing_scene(self, materials):
        """Triangles that cross within pixels, many of them where samples are: they have the same
        corners on the image, whose distances are exchanged."""
        rng = self.rng
        lines = []
        for _ in range(rng.randint(1, 3)):
            corners = [self.places() for _ in range(3)]
            if self.chance(70):
                corners = [(x * rng.randint(2, 5), y * rng.randint(2, 5)) for x, y in corners]
            distances = rng.choice([[2, 4, 8], [1, 2, 2], [4, 4.5, 5], [0.5, 1, 8], [3.9, 4, 4.1]])
            for _ in range(rng.randint(2, 8)):
                lines += [self.shown(x, y, rng.choice(distances)) for x, y in corners]
                lines += self.painted(rng.sample([-1, -2, -3], 3), materials)
        return lines

    def long_scene(self, materials):
        """Many triangles over a few pixels, of a small image or around the picked one."""
        rng = self.rng
        is_small = self.chance(50)
        if is_small:
            self.resize(rng.choice([1, 1, 2]), rng.choice([1, 1, 2]))
        points = []
        for _ in range(rng.randint(3, 12)):
            if is_small:
                x, y = (rng.randint(1, 4) * part for part in self.places())
            else:
                x, y = (256 * place + 16 * rng.randint(-8, 24) - 128 * side for place, side
                        in zip(self.place, (self.width, self.height)))
            points.append(self.shown(x, y, rng.choice([0.5, 1, 2, 4, 8, 4 + rng.random()])))
        lines = []
        for _ in range(rng.choice([30, 60, 100, 300])):
            lines += self.painted(rng.sample(range(1, len(points) + 1), 3), materials)
        return points + lines

    def painted(self, corners, materials):
        """The lines of a face, often with a material."""
        paint = []
        if materials and self.chance(90):
            paint = [b"usemtl " + self.rng.choice(materials)]
        return paint + ["f {} {} {}".format(*corners).encode()]

    def make_paints(self, lines, libraries):
        """Opaque, transparent and invisible materials, or thin films of which many show."""
        rng = self.rng
        alphas = rng.choice([["1", "1", "0.5", "0.25", f"{rng.random():.4f}", "0"],
                             ["0.1", "0.05", "0.02", f"{rng.random():.4f}"]])
        lines.append(b"mtllib a.mtl")
        text = []
        for i in range(6):
            colour = " ".join(rng.choice(["0", "1", f"{rng.random():.4f}"]) for _ in range(3))
            text += [f"newmtl m{i}", f"Kd {colour}"]
            text.append("d " + rng.choice(alphas))
        libraries["a.mtl"] = b"".join(line.encode() + b"\n" for line in text)
        return [f"m{i}".encode() for i in range(6)]

    def huge_scene(self, materials):
        """Triangles with corners as far out as can be, and edges that run through samples."""
        rng = self.rng
        self.forced = {"focal": "16", "near": "0.0625"}
        if self.chance(5):
            self.resize(1, 4096)
        else:
            self.resize(self.width, rng.choice([1, 2, 4, 8, 16, 32]))
        lines = []
        for _ in range(rng.randint(1, 4)):
            through = self.places()
            right, down = rng.randint(-3, 3), rng.randint(-3, 3)
            for side in (1, -1, 0):
                away = rng.choice([0.0625, 0.0625, 0.125, 1])
                farthest = round(2 ** 30 * self.height * 0.0625 / away)
                steps = farthest // 2 ** rng.randint(10, rng.choice([12, 30])) * side
                x, y = through[0] + 256 * steps * right, through[1] + 256 * steps * down
                if side == 0:
                    x, y = (rng.randint(-farthest, farthest) for _ in range(2))
                    x, y = (16 * (value // 2 ** rng.choice([4, 8, 30])) for value in (x, y))
                lines.append(self.shown(x, y, away, 16))
            lines += self.painted(rng.sample([-1, -2, -3], 3), materials)
        return lines

    def thin_scene(self, materials):
        """Tiny triangles and slivers near samples."""
        rng = self.rng
        lines = []
        for _ in range(rng.randint(3, 12)):
            x, y = self.places()
            far = self.places() if self.chance(60) else None
            near = [(x + rng.randint(-3, 3), y + rng.randint(-3, 3)) for _ in range(3)]
            corners = near[:2] + [far or near[2]]
            if self.chance(40):
                corners[0] = x, y
            lines += [self.shown(*corner, rng.choice([4, 4, 1])) for corner in corners]
            lines += self.painted([-1, -2, -3], materials)
        return lines

    def near_scene(self):
        """Large triangles cut by a near plane so close that a single unit of a cut shows."""
        rng = self.rng
        self.forced = {"focal": "16", "near": "0.0625"}
        self.samples = self.forced["samples"] = rng.choice(["8", "16"])
        points = []
        for _ in range(rng.randint(3, 9)):
            points.append(self.vertex(rng.randint(-400, 400), rng.randint(-400, 400),
                                      262144 - rng.randint(-20000, 20000)))
        faces = []
        for _ in range(rng.randint(2, 6)):
            corners = [rng.randint(1, len(points)) for _ in range(3)]
            faces.append("f {} {} {}".format(*corners).encode())
        return points + faces

    def face(self, count, last):
        """A fan over a run of the last points, or a face of any points."""
        rng = self.rng
        if self.chance(60):
            places = list(range(count - last, count))
            if self.chance(40):
                places = rng.sample(places, 3)
            elif self.chance(30):
                places.reverse()
        else:
            places = [rng.randrange(count) for _ in range(rng.randint(3, 5))]
        elements = []
        for place in places:
            index = str(place + 1 if self.chance(60) else place - count)
            index += rng.choice(["", "", "", "/", "//", "/1", "/1/2", "//-3", "/0/"])
            elements.append(index)
        return ("f " + rng.choice([" ", "  ", "\t"]).join(elements)).encode()

    def make_libraries(self, lines, libraries):
        rng = self.rng
        materials = [f"m{i}".encode() for i in range(rng.randint(1, 4))]
        names = ["a.mtl", "b c.mtl", "d.mtl"][: rng.randint(1, 3)]
        for number, name in enumerate(names):
            lines.append(b"mtllib " + name.encode())
            text = []
            held = materials if number == 0 else rng.sample(materials, rng.randint(0, 1))
            for material in held:
                text.append(b"newmtl " + material)
                for _ in range(rng.randint(0, 3)):
                    text.append(self.library_line())
            libraries[name] = b"".join(line + b"\n" for line in text)
        return materials

    def library_line(self):
        rng = self.rng
        share = lambda: rng.choice(["0", "1", "0.5", ".25", "1e-1", "0.8", "2", "-1"]
                                   + 4 * [f"{rng.random():.6f}"])
        return rng.choice([
            lambda: f"Kd {share()} {share()} {share()}",
            lambda: f"Kd {share()}",
            lambda: f"d {share()}",
            lambda: f"\td {share()} # {share()}",
            lambda: f"Ns {share()}",
            lambda: "illum 2",
        ])().encode()

    def damaged(self, data):
        """The text with one to three bytes changed, put in or taken out."""
        rng = self.rng
        data = bytearray(data)
        for _ in range(rng.randint(1, 3)):
            place = rng.randint(0, len(data))
            kind = rng.randrange(3)
            if kind == 0 and data:
                del data[min(place, len(data) - 1)]
            else:
                piece = rng.choice([b"#", b" ", b"\n", b"-", b"/", b".", b"0", b"9", b"e", b"v",
                                    b"\r", b"x", b"\x80", b"\t", b"+"])
                data[place:place + (kind == 1)] = piece
        return bytes(data)


# ---- the two parts


def compare_rows(found, is_self, slow):
    told = report.Report("rows")
    for row in worked.rows():
        if slow or not row.is_slow:
            told.add(f"row: {row.title}\n  words: {row.words}\n", differences((row.status, row.out, row.err), run(found, row)))
            told.progress(told.passed + told.failed)
    for agreement in worked.agreements():
        if agreement.is_slow and (is_self or not slow):
            continue
        answers = [run(found, worked.Row("", agreement.words + further, b""))
                   for further in agreement.further]
        is_right = answers[0].out.startswith(agreement.out) and len(set(answers)) == 1
        told.add(f"row: {agreement.title}\n  words: {agreement.words}",
                 None if is_right else "\n  ".join(map(str, answers)))
    told.line(f"rows: {told.passed + told.failed} compared, {told.failed} failed")
    return told.failed == 0


def compare_random(found, count, seed, keep):
    maker, told = Maker(random.Random(seed)), report.Report("scenes")
    statuses = {}
    for number in range(count):
        row = maker.case(number)
        wanted = run_reference(row)
        statuses[wanted[0]] = statuses.get(wanted[0], 0) + 1
        fault = differences(wanted, run(found, row))
        if not told.add(f"{row.title} of seed {seed}\n  words: {row.words}\n", fault):
            print(f"  scene: {row.scene!r}")
            for name, data in row.libraries.items():
                print(f"  {name}: {data!r}")
            if keep:
                write_row(row, keep)
            return False
        told.progress(number + 1, count)
    shares = ", ".join(f"{statuses[status]} of status {status}" for status in sorted(statuses))
    told.line(f"random: {count} scenes agree, {shares}")
    return True


def write_row(row, folder):
    os.makedirs(folder, exist_ok=True)
    for name, data in [("scene.obj", row.scene), *row.libraries.items()]:
        with open(os.path.join(folder, name), "wb") as file:
            file.write(data)


def main():
    parser = report.words(__doc__)
    parser.add_argument("--self", action="store_true", dest="is_self",
                        help="compare the rows with the reference itself")
    parser.add_argument("--only", choices=["rows", "random"])
    parser.add_argument("--cases", type=int, default=2000, metavar="N", help="random scenes (2000)")
    parser.add_argument("--seed", type=int, default=1, metavar="S", help="decides the random scenes (1)")
    parser.add_argument("--slow", action="store_true", help="rows of long files and large scenes")
    parser.add_argument("--keep", metavar="FOLDER", help="write a scene that differs there")
    program.add_option(parser)
    given = parser.parse_args()
    found = REFERENCE if given.is_self else program.find(given.abuf)
    is_good = True
    if given.only != "random":
        is_good = compare_rows(found, given.is_self, given.slow)
    if given.only != "rows" and not given.is_self:
        is_good &= compare_random(found, given.cases, given.seed, given.keep)
    return report.WELL if is_good else report.WRONG


if __name__ == "__main__":
    report.end(main)
