"""The near plane: which corners are inside, and the places of the cuts."""

from scenes.drawing import NODES, Case, Drawing, lines

HALF = "--near 4"  # half of the distance of the plane z = 0 in an image of 16 rows


def eight():
    drawing = Drawing("eight", 32, 16)
    for case in range(8):
        row, column = divmod(case, 4)
        inside = [bool(case & bit) for bit in (1, 2, 4)]
        corners = [(8 * column + x, 8 * row + y) for x, y in ((1.5, 1), (7.5, 3.5), (2.5, 7.5))]
        names = ", ".join(name for name, one in zip("ABC", inside) if one) or "none"
        drawing.note(f"inside: {names}; the whole of the triangle is grey")
        drawing.paint("grey")
        drawing.face(*corners)
        drawing.paint(("red", "green", "blue", "yellow", "cyan", "magenta", "white")[case - 1])
        drawing.face(*((*corner, 0.75 if one else 0.25) for corner, one in zip(corners, inside)))
    yield drawing.case("All eight cases of corners in front of the near plane and behind it: what "
                       "is left of the triangle lies before the grey whole of it.", more=HALF)
    yield drawing.case("All eight cases of corners in front of the near plane and behind it, with "
                       "8 samples.", "eight-8", samples=8, more=HALF)


def numbers():
    drawing = Drawing("numbers", 8, 8)
    corners = [(1, 1), (7, 1), (2, 7)]
    for i, inside in enumerate(((0, 1), (1, 2), (2, 0))):
        drawing.note(f"inside: {'ABC'[inside[0]]} and {'ABC'[inside[1]]}")
        drawing.face(*((*corner, (0.75 if place in inside else 0.25) - i / 64)
                       for place, corner in enumerate(corners)))
    drawing.note("inside: A; B; C")
    for i in range(3):
        drawing.face(*((*corner, 0.8125 if place == i else 0.375)
                       for place, corner in enumerate(corners)))
    for at in ("2,1", "5,1", "2,5"):
        yield drawing.case(
            "A triangle with two corners inside gives two primitives, of which the first begins "
            "with these two; one with one corner inside gives one.",
            "numbers-" + at.replace(",", "-"), command=f"pick {at}", samples=2, more="--near 2")


def on_plane():
    unit = 1 / 65536
    body = ["# on-plane", "# The near plane is at z = 4, and a unit of length is 1/65536.",
            "mtllib paints.mtl"]
    films = ["red", "green", "blue", "yellow", "cyan", "magenta", "white", "grey"]
    tilts = [(0, 0, 0), (unit, unit, unit), (-unit, -unit, -unit), (unit, 0, 0),
             (unit, -1, -1), (0, -1, -1), (-unit, 1, 1), (unit, unit, -1)]
    for i, tilt in enumerate(tilts):
        x, y = i % 4 * 4 - 8, 4 - i // 4 * 4
        body += ["", f"usemtl {films[i]}"]
        for (right, up), part in zip(((0.5, 3.5), (3.5, 3), (1, 0.5)), tilt):
            away = 4 - part
            body.append(f"v {(x + right) * away / 8:.16f} {(y + up) * away / 8:.16f} "
                        f"{4 + part:.16f}")
        body.append("f -3 -2 -1")
    files = {"on-plane.obj": lines(*body), **Drawing("", 1, 1).files()}
    words = f"--size 16x8 --move 0,0,-8 {HALF} --nodes {NODES}"
    yield Case("on-plane", "Corners on the near plane are inside, and those one unit of 1/65536 "
               "nearer are outside.", f"abuf render {words} < on-plane.obj", files)


def shared_cuts():
    films = ["red_film", "green_film", "blue_film", "yellow_film", "cyan_film", "magenta_film"]
    points = {}
    for row in range(3):
        for column in range(5):
            x = 3 * column - 6 + (row * 7 + column * 5) % 4 * 0.375
            depth = (8, 2.5, -3)[row] + (column * 3 + row) % 5 * 0.25
            points[row, column] = (x, 3 - (row + column) % 3 * 0.25, depth)
    body = [f"v {x - 0.25} {-y} {-w}" for x, y, w in points.values()]
    for row in range(2):
        for column in range(4):
            a, b = row * 5 + column + 1, row * 5 + column + 2
            c, d = b + 5, a + 5
            halves = [(a, b, c), (a, c, d)] if column % 2 else [(b, d, a), (c, d, b)]
            for i, half in enumerate(halves):
                body += [f"usemtl {films[(column * 2 + i + row * 3) % 6]}",
                         "f " + " ".join(map(str, half))]
    text = lines("# shared-cuts", "# A sheet from far below through the near plane to behind the "
                 "camera.", "mtllib paints.mtl", *body)
    files = {"shared-cuts.obj": text, **Drawing("", 1, 1).files()}
    for samples in (1, 16):
        words = (f"--size 32x32 --samples {samples} --turn 5,1,0,0 --move 0,0,0 --near 1 "
                 f"--nodes {NODES}")
        yield Case(f"shared-cuts-{samples}", "A sheet of films is cut by the near plane; edges "
                   "that two of them share are cut at one point, so each sample is covered once.",
                   f"abuf render {words} < shared-cuts.obj", files)


def cut_rounding():
    """With focal length 16 at distance 1/16 a unit of length is 1/8 pixel of a height of 64."""
    body = ["# cut-rounding", "# Coordinates are in units of 1/65536 (times 152587890625e-16).",
            "mtllib paints.mtl"]
    films = ["red_film", "green_film", "blue_film", "yellow_film", "cyan_film", "magenta_film"]
    state = 7
    for i in range(18):
        body.append(f"usemtl {films[i % 6]}")
        for _ in range(3):
            parts = []
            for most in (300, 300, 9000):
                state = (1664525 * state + 1013904223) % 2 ** 32
                parts.append((state >> 8) % (2 * most + 1) - most)
            parts[2] -= 4096
            body.append("v " + " ".join(f"{part * 5 ** 16}e-16" for part in parts))
        body.append("f -3 -2 -1")
    files = {"cut-rounding.obj": lines(*body), **Drawing("", 1, 1).files()}
    words = f"--size 64x64 --samples 4 --move 0,0,0 --focal 16 --near 0.0625 --nodes {NODES}"
    yield Case("cut-rounding", "Cuts so near that one unit of 1/65536 is 1/8 pixel: their places "
               "are rounded to the left, and to the bottom of the image.",
               f"abuf render {words} < cut-rounding.obj", files)


def corridor():
    body = ["# corridor", "# Floor, walls and ceiling run from far away to behind the camera.",
            "mtllib paints.mtl"]
    for x, y in ((-1, -1), (1, -1), (1, 1), (-1, 1)):
        body += [f"v {x} {y} {z}" for z in (-12, -6, -3, -1, 1)]
    for side in range(4):
        for part in range(4):
            paint = ("grey", "blue", "white", "red")[side] if part % 2 else "black"
            a, b = side * 5 + part + 1, (side + 1) % 4 * 5 + part + 1
            body += [f"usemtl {paint}", f"f {a} {b} {b + 1} {a + 1}"]
    files = {"corridor.obj": lines(*body), **Drawing("", 1, 1).files()}
    words = f"--size 48x48 --samples 8 --move 0.25,0.125,0 --background 0,0.5,0.5 --nodes {NODES}"
    yield Case("corridor", "A corridor around the camera: its nearest parts are cut, and reach "
               "past the sides of the image.", f"abuf render {words} < corridor.obj", files)


def cases():
    for part in (eight, numbers, on_plane, shared_cuts, cut_rounding, corridor):
        yield from part()
