#!/usr/bin/env python3
"""Writes the example lantern: a lantern of coloured glass on a table, lit by its candle.

    lantern.py FOLDER       writes lantern.obj and lantern.mtl there, the same bytes each time

    lantern.py examples

An image has no lighting, so what looks like light is glass too. The glow of the flame and the pool
of light on the table are stacks of discs that are nearly clear. The light that falls through a pane
is a film of the pane's colour on the table, where the rays from the flame through the pane end. The
iron and the wax have a few shades each, by the way that their faces look.

The model is kept small: bars have no inner faces, and the flame is flat and looks to the camera.
"""

import math
import os

from abuflib import report

WORDS = ("abuf render --size 320x240 --samples 8 --background 0.04,0.045,0.09"
         " --turn=8,1,0,0 --move=0,0.36,-8.6 --focal 2.7")
TILT = 2 * math.atan2(1, 8)  # how far the camera looks down, by the words above

# Heights above the table, which is at y = -1.7.
TABLE = -1.7
PLATE = 0.14
SILL = 0.28
FLAME = (0, 1.2, 0)
HEAD = 2.2
EAVES = 2.34
CROWN = 3.05

SIDES = 6
TWIST = math.radians(17)  # so that no side is seen flat on
BODY = 0.95  # from the axis to the corners of the glass

GLASS = {
    "ruby": (0.92, 0.1, 0.14),
    "amber": (1, 0.66, 0.1),
    "moss": (0.24, 0.74, 0.24),
    "sea": (0.08, 0.66, 0.74),
    "cobalt": (0.16, 0.3, 0.95),
    "violet": (0.64, 0.2, 0.84),
}
NAMES = list(GLASS)


# ---- points


def add(p, q):
    return tuple(a + b for a, b in zip(p, q))


def minus(p, q):
    return tuple(a - b for a, b in zip(p, q))


def times(p, factor):
    return tuple(a * factor for a in p)


def between(p, q, share):
    return add(p, times(minus(q, p), share))


def dot(p, q):
    return sum(a * b for a, b in zip(p, q))


def cross(p, q):
    return (p[1] * q[2] - p[2] * q[1], p[2] * q[0] - p[0] * q[2], p[0] * q[1] - p[1] * q[0])


def unit(p):
    return times(p, 1 / math.sqrt(dot(p, p)))


def middle(points):
    return times(tuple(map(sum, zip(*points))), 1 / len(points))


def circle(radius, count):
    """The corners of a polygon about (0, 0)."""
    angles = [TWIST + 2 * math.pi * i / count for i in range(count)]
    return [(radius * math.sin(angle), radius * math.cos(angle)) for angle in angles]


def ring(radius, height, count=SIDES):
    """The corners of a level polygon about the axis."""
    return [(x, height, z) for x, z in circle(radius, count)]


def sides(lower, upper):
    """The quadrilaterals between two rings of as many corners."""
    return [(lower[i - 1], lower[i], upper[i], upper[i - 1]) for i in range(len(lower))]


def below(corners, height):
    """The part of a polygon that lies below a height."""
    kept = []
    for p, q in zip(corners, corners[1:] + corners[:1]):
        if p[1] <= height:
            kept.append(p)
        if (p[1] <= height) != (q[1] <= height):
            kept.append(between(p, q, (height - p[1]) / (q[1] - p[1])))
    return kept


# ---- the model


class Model:
    """Points, each once, and faces with their materials."""

    def __init__(self):
        self.points = {}
        self.lines = []
        self.triangles = 0
        self.material = None

    def group(self, name):
        self.lines.append(f"o {name}")

    def face(self, material, corners):
        if material != self.material:
            self.lines.append(f"usemtl {material}")
            self.material = material
        places = []
        for x, y, z in corners:
            text = " ".join(f"{round(a, 3) + 0.0:.3f}" for a in (x, y + TABLE, z))
            place = self.points.setdefault(text, len(self.points) + 1)
            if place not in places:
                places.append(place)
        self.lines.append("f " + " ".join(map(str, places)))
        self.triangles += len(places) - 2

    def shaded(self, name, shades, corners, inside):
        """A face of a solid, in a shade by the way that it looks, away from a point inside."""
        normal = unit(cross(minus(corners[1], corners[0]), minus(corners[2], corners[0])))
        if dot(normal, minus(middle(corners), inside)) < 0:
            normal = times(normal, -1)
        light = 0.5 + 0.5 * dot(normal, unit((-0.6, 0.55, 0.6)))
        self.face(f"{name} {min(shades, 1 + int(shades * light))}", corners)

    def band(self, name, shades, lower, upper):
        """The faces of a solid between two rings."""
        for corners in sides(lower, upper):
            self.shaded(name, shades, corners, (0, middle(corners)[1], 0))

    def iron_band(self, lower, upper):
        self.band("iron", 5, lower, upper)

    def iron_plate(self, corners):
        """A level face that looks upwards."""
        self.shaded("iron", 5, corners, (0, 0, 0))

    def bar(self, start, end, width, outwards):
        """An iron bar, of the two faces that meet on its outer side."""
        along = unit(minus(end, start))
        aside = times(unit(cross(along, outwards)), width / 2)
        out = times(unit(cross(aside, along)), width / 2)
        for edge in (aside, times(aside, -1)):
            corners = [add(start, edge), add(end, edge), add(end, out), add(start, out)]
            self.shaded("iron", 5, corners, between(start, end, 0.5))


# ---- the parts


def panes_of(corners):
    """The panes of a side: a diamond and the four corners about it."""
    a, b, c, d = corners
    low, right, top, left = (between(p, q, 0.5) for p, q in ((a, b), (b, c), (c, d), (d, a)))
    return [(low, right, top, left), (a, low, left), (low, b, right), (right, c, top),
            (top, d, left)]


def colour_of(side, pane):
    return NAMES[(side + (1, 3, 5, 4, 0)[pane]) % len(NAMES)]


def put_table(model):
    model.group("table")
    for i in range(8):
        model.face("lit table", ring(3.5 - 0.28 * i, -0.02 + 0.001 * i, 20 - i))


def put_light(model, body):
    """What the rays from the flame through the panes draw on the table, the farthest lowest."""
    model.group("light")
    for step, reach in enumerate((3.1, 2.6, 2.1)):
        for side, corners in enumerate(body):
            for number, pane in enumerate(panes_of(corners)):
                film = []
                for p in below(pane, FLAME[1] * (1 - 1 / reach)):
                    end = add(FLAME, times(minus(p, FLAME), FLAME[1] / (FLAME[1] - p[1])))
                    film.append(add(end, (0, 0.002 + 0.001 * step, 0)))
                if film:
                    model.face(f"{colour_of(side, number)} light", film)


def put_candle(model):
    model.group("candle")
    top = ring(0.26, FLAME[1] - 0.3, 10)
    model.band("wax", 4, ring(0.26, SILL, 10), top)
    model.face("wax 4", top)


def to_camera(outline, ahead):
    """A flat outline about the flame that looks to the camera, a distance ahead of the flame."""
    up, out = math.cos(TILT), math.sin(TILT)
    return [add(FLAME, (x, y * up + ahead * out, ahead * up - y * out)) for x, y in outline]


def put_flame(model):
    model.group("glow")
    for i in range(6):
        model.face("glow", to_camera(circle(0.88 - 0.13 * i, 12), 0))
    model.group("flame")
    half = [(0, 0.34), (0.05, 0.16), (0.085, 0.02), (0.075, -0.06), (0, -0.16)]
    outline = half + [(-x, y) for x, y in half[-2:0:-1]]
    for scale, ahead, material in ((1.55, 0.01, "flame"), (1, 0.02, "flame core")):
        model.face(material, to_camera([(x * scale, y * scale) for x, y in outline], ahead))


def put_glass(model, body):
    model.group("glass")
    for side, corners in enumerate(body):
        for number, pane in enumerate(panes_of(corners)):
            model.face(f"{colour_of(side, number)} glass", pane)


def put_frame(model):
    model.group("frame")
    for corners in sides(ring(BODY + 0.01, SILL), ring(BODY + 0.01, HEAD)):
        foot, head = corners[0], corners[3]
        model.bar(foot, head, 0.1, (foot[0], 0, foot[2]))
        diamond, centre = panes_of(corners)[0], middle(corners)
        inner, outer = ([between(centre, p, share) for p in diamond] for share in (0.96, 1.04))
        for strip in sides(inner, outer):
            model.shaded("iron", 5, strip, (0, centre[1], 0))
    plate, sill = ring(BODY + 0.22, PLATE), ring(BODY + 0.04, SILL)
    model.iron_band(ring(BODY + 0.22, 0), plate)
    model.iron_plate(plate)
    model.iron_band(ring(BODY + 0.08, PLATE), sill)
    model.iron_plate(sill)
    brim = ring(BODY + 0.16, HEAD + 0.05)
    model.iron_band(ring(BODY + 0.04, HEAD), brim)
    model.iron_band(brim, ring(BODY + 0.16, EAVES))


def put_roof(model):
    model.group("roof")
    eaves, crown = ring(BODY + 0.1, EAVES), ring(0.24, CROWN)
    for side, corners in enumerate(sides(eaves, crown)):
        model.face(f"{NAMES[(side + 2) % len(NAMES)]} glass", corners)
    for p, q in zip(eaves, crown):
        model.bar(p, q, 0.085, (p[0], 0.8, p[2]))
    collar = ring(0.3, CROWN + 0.07)
    model.iron_band(ring(0.3, CROWN - 0.03), collar)
    model.iron_band(collar, ring(0.07, CROWN + 0.2))
    model.group("handle")
    centre = (0, CROWN + 0.42, 0)
    inner, outer = ([add(centre, (x, y, out)) for x, y in circle(radius, 14)]
                    for radius, out in ((0.215, 0.03), (0.27, 0)))
    for strip in sides(inner, outer):
        model.shaded("iron", 5, strip, centre)


# ---- the two files


def lantern():
    """The text of the scene, and how many triangles it has."""
    model = Model()
    body = sides(ring(BODY, SILL), ring(BODY, HEAD))
    put_table(model)
    put_light(model, body)
    put_candle(model)
    put_flame(model)
    put_glass(model, body)
    put_frame(model)
    put_roof(model)
    head = ["# A lantern of coloured glass, lit by its candle. Glow and light are stacks of glass",
            "# too, nearly clear. Written by tools/lantern.py.",
            "# " + WORDS,
            "mtllib lantern.mtl"]
    points = ["v " + text for text in model.points]
    return "\n".join(head + points + model.lines) + "\n", model.triangles


def library():
    lines = ["# Materials of the lantern, written by tools/lantern.py."]

    def material(name, colour, alpha):
        values = " ".join(f"{round(a, 3):g}" for a in colour)
        lines.extend(["", f"newmtl {name}", f"Kd {values}", f"d {alpha:g}"])

    for name, colour in GLASS.items():
        material(f"{name} glass", colour, 0.48)
        material(f"{name} light", colour, 0.15)
    for shade in range(1, 6):
        material(f"iron {shade}", times((0.1, 0.1, 0.12), 0.3 + 0.5 * shade), 1)
    for shade in range(1, 5):
        material(f"wax {shade}", times((1, 0.91, 0.74), 0.52 + 0.12 * shade), 1)
    material("flame core", (1, 0.98, 0.86), 1)
    material("flame", (1, 0.78, 0.25), 0.55)
    material("glow", (1, 0.8, 0.4), 0.2)
    material("lit table", (0.64, 0.42, 0.24), 0.08)
    return "\n".join(lines) + "\n"


def main():
    parser = report.words(__doc__)
    parser.add_argument("folder", metavar="FOLDER", help="where the two files go")
    folder = parser.parse_args().folder
    text, triangles = lantern()
    for name, data in (("lantern.obj", text), ("lantern.mtl", library())):
        with open(os.path.join(folder, name), "w", encoding="ascii", newline="\n") as file:
            file.write(data)
    print(f"lantern.obj: {triangles} triangles")


if __name__ == "__main__":
    report.end(main)
