"""Triangles past the sides of the image, with corners up to the farthest that can be."""

import math
import random

from scenes.drawing import DIRECTIONS, NODES, Case, Drawing, lines

FARTHEST = 2147483647  # in units of 1/65536


def sides():
    drawing = Drawing("sides", 16, 16)
    middles, ends = [(0, 8), (16, 8), (8, 0), (8, 16)], [(0, 0), (16, 0), (16, 16), (0, 16)]
    for i, (x, y) in enumerate(middles + ends):
        drawing.note(f"about {x} {y}")
        drawing.paint(("red_film", "green_film", "blue_film", "yellow_film")[i % 4])
        drawing.face((x - 3.5, y - 2.5), (x + 3.5, y - 3.5), (x + 1.5, y + 4.5))
    yield drawing.case("Triangles about the corners of the image and the middles of its sides.")
    yield drawing.case("Triangles about the corners of the image and the middles of its sides, with "
                       "8 samples.", "sides-8", samples=8)

    drawing = Drawing("beside", 8, 8)
    drawing.note("squares outside that share the sides of the image")
    drawing.paint("red")
    for left, top, right, bottom in ((-4, 0, 0, 8), (8, 0, 12, 8), (0, -4, 8, 0), (0, 8, 8, 12)):
        drawing.square(left, top, right, bottom)
    drawing.note("triangles that touch the centres next to the image")
    drawing.face((-0.5, 3.5), (-3.5, 1.5), (-3.5, 6.5))
    drawing.face((8.5, 3.5), (11.5, 1.5), (11.5, 6.5))
    drawing.face((3.5, -0.5), (1.5, -3.5), (6.5, -3.5))
    drawing.face((3.5, 8.5), (1.5, 11.5), (6.5, 11.5))
    drawing.note("the frame of the image itself, which covers all of it")
    drawing.paint("green_film")
    drawing.square(0, 0, 8, 8)
    yield drawing.case("What lies beside the image isn't drawn; the square of its frame covers it "
                       "all.", samples=16)


def whole():
    drawing = Drawing("whole", 16, 12)
    drawing.note("no corner and no edge in the image")
    drawing.paint("red_film")
    drawing.face((-100, -20), (120, -30), (5, 200))
    drawing.note("the same with edges through its corners")
    drawing.paint("green_film")
    drawing.face((-6, 0), (22, 0), (8, 28))
    yield drawing.case("Triangles around the whole image, one of them with edges exactly through "
                       "all four of its corners.", samples=4)


def long_edges(name, reach, shows):
    drawing = Drawing(name, 16, 16)
    for i, (dx, dy) in enumerate(DIRECTIONS[:8]):
        x, y = 8.5, i * 2 + 0.5
        one, other = (x - reach * dx, y - reach * dy), (x + reach * dx, y + reach * dy)
        beside = (x + dy * 3 + 2 * reach * dx, y - dx * 3 + 2 * reach * dy)
        drawing.note(f"by {dx} {dy}")
        drawing.paint(("red_film", "green_film", "blue_film", "yellow_film")[i % 4])
        drawing.face((*one, 1 / 64), (*other, 1 / 64), (*beside, 1 / 64))
    yield drawing.case(shows)


def long_sides():
    drawing = Drawing("long-sides", 24, 24)
    drawing.paint("green_film")
    drawing.face((16, 16), (-3109, 16), (16, -3109))
    yield drawing.case("A triangle that ends in the image and whose sides reach some thousand pixels past "
                       "its left and its top side.")


def far_corners():
    """Triangles that a driver was seen to draw wrongly, each as small as it can be."""
    drawing = Drawing("far-corner", 2, 2)
    drawing.paint("green_film")
    drawing.face((-2888, -2888), (2, -2888), (2, 2))
    yield drawing.case("A triangle that ends in the image, with a corner 2,888 pixels above it and to its left.")

    drawing = Drawing("far-corners", 100, 100)
    drawing.paint("green_film")
    drawing.face((69, 77), (4847, -19033), (16497, -16351))
    yield drawing.case("A triangle that begins in the image and whose other corners lie some thousand pixels to "
                       "the right and above.")


def rim_point(centre, reach, k, count, chance):
    """A corner of a fan's rim, nearly so many pixels from its centre. Most spokes run through pixel centres."""
    angle = 2 * math.pi * (k + 0.8 * chance.random()) / count
    if chance.random() < 0.7:
        length = chance.randint(1, 9)
        dx, dy = round(length * math.cos(angle)) or 1, round(length * math.sin(angle))
        steps = int(reach / math.hypot(dx, dy))
        return centre[0] + steps * dx, centre[1] + steps * dy
    return tuple(round(16 * (at + reach * turn)) / 16
                 for at, turn in zip(centre, (math.cos(angle), math.sin(angle))))


def fan_about(centre, reach, chance):
    """The corners of a closed fan's rim, in their order round the centre, less than half a turn apart."""
    count = 12
    while True:
        rim = [rim_point(centre, reach, k, count, chance) for k in range(count)]
        rim.sort(key=lambda p: math.atan2(p[1] - centre[1], p[0] - centre[0]))
        if all((p[0] - centre[0]) * (q[1] - centre[1]) > (p[1] - centre[1]) * (q[0] - centre[0])
               for p, q in zip(rim[-1:] + rim, rim)):
            return rim


def fans():
    for reach in (500, 2500, 4000, 8000, 30000):
        chance = random.Random(reach)
        drawing = Drawing(f"fans-{reach}", 32, 32)
        for film, centre in (("red_film", (5.5, 7.5)), ("green_film", (16.5, 15.5)), ("blue_film", (27.5, 24.5))):
            rim = fan_about(centre, reach, chance)
            drawing.note(f"a closed fan about {centre[0]} {centre[1]}")
            drawing.paint(film)
            for p, q in zip(rim[-1:] + rim, rim):
                drawing.face(centre, p, q)
        yield drawing.case(f"Three closed fans whose rims lie some {reach} pixels away: each of them covers every "
                           "sample once, so the image has one colour.")


def limits():
    """At distance 1/16 with focal length 16, a unit of 1/65536 is 1/32 pixel of a height of 16."""

    def vertex(x, y):
        return f"v {units(int(32 * x))} {units(int(-32 * y))} 0"

    def units(count):
        return f"{count * 5 ** 16}e-16"

    body = ["# limits", "# A coordinate of 32 * 5^16 e-16 is a pixel.", "mtllib paints.mtl"]
    films = ["red_film", "green_film", "blue_film", "yellow_film", "cyan_film", "magenta_film"]
    for i, (dx, dy) in enumerate(((1, 0), (3, 1), (1, 1), (1, 3), (0, 1), (-1, 3))):
        most = FARTHEST // 32 // max(abs(dx), abs(dy)) - 16
        x, y = 0.5 + i - 3, 0.5 - i + 2
        one, other = (x - most * dx, y - most * dy), (x + most * dx, y + most * dy)
        body += ["", f"# an edge by {dx} {dy} as long as can be, between two films",
                 vertex(*map(round_half, one)), vertex(*map(round_half, other)),
                 f"v {units(-FARTHEST * sign(dy))} {units(-FARTHEST * sign(dx))} 0",
                 f"v {units(FARTHEST * sign(dy))} {units(FARTHEST * sign(dx))} 0",
                 f"usemtl {films[i]}", "f -4 -3 -2", f"usemtl {films[(i + 3) % 6]}", "f -4 -3 -1"]
    words = f"--size 16x16 --move 0,0,-0.0625 --focal 16 --near 0.0625 --nodes {NODES}"
    files = {"limits.obj": lines(*body), **Drawing("", 1, 1).files()}
    yield Case("limits", "Films whose corners lie as far out as coordinates reach, about 2^34 in "
               "1/256 pixel, share edges through pixel centres.",
               f"abuf render {words} < limits.obj", files)
    yield Case("limits-16", "Films whose corners lie as far out as coordinates reach share edges, with 16 samples.",
               f"abuf render --samples 16 {words} < limits.obj", files)

    far = f"{FARTHEST * 5 ** 16}e-16"
    body = ["# tall", "# The corners are as far out as can be: about 2^42 in 1/256 pixel.",
            "mtllib paints.mtl",
            f"v 0 {far} 0", f"v 0 -{far} 0", f"v -{far} 0 0", f"v {far} 1e-3 0",
            "usemtl red_film", "f 1 2 3", "usemtl green_film", "f 1 2 4"]
    words = words.replace("16x16", "1x4096")
    files = {"tall.obj": lines(*body), **Drawing("", 1, 1).files()}
    yield Case("tall", "Two films with corners about 2^42 in 1/256 pixel away share an upright "
               "edge through the centres of an image of 4096 rows: the right one covers them all.",
               f"abuf render {words} < tall.obj", files)


def round_half(value):
    """A place in pixels as it stands, on a grid of half pixels."""
    return round(2 * value) / 2


def sign(value):
    return (value > 0) - (value < 0)


def cases():
    yield from sides()
    yield from whole()
    yield from long_edges(
        "long-edges", 2 ** 11, "Slivers a few thousand pixels long, within common guard bands, "
        "with edges through pixel centres in eight directions.")
    yield from long_edges(
        "longer-edges", 2 ** 16, "Slivers some hundred thousand pixels long, with edges through "
        "pixel centres in eight directions.")
    yield from long_sides()
    yield from far_corners()
    yield from fans()
    yield from limits()
