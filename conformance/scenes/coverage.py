"""Coverage: the top-left rule on edges and vertices that go exactly through samples."""

from scenes.drawing import DIRECTIONS, Drawing, at_sample

PAINTS = ["red", "green", "blue", "yellow"]
FILMS = ["red_film", "green_film", "blue_film", "yellow_film", "cyan_film", "magenta_film"]
ON_CENTRES = [(6, 0), (6, 3), (6, 6), (3, 6), (0, 6), (-3, 6), (-6, 6), (-6, 3),
              (-6, 0), (-6, -3), (-6, -6), (-3, -6), (0, -6), (3, -6), (6, -6), (6, -3)]
STEP = 1 / 256


def cells(count_across, side):
    """The middle pixels' centres of cells of so many pixels, row by row, one for each direction."""
    for i, direction in enumerate(DIRECTIONS):
        row, column = divmod(i, count_across)
        yield i, direction, (column * side + side // 2 + 0.5, row * side + side // 2 + 0.5)


def directions():
    drawing = Drawing("directions", 32, 32)
    for i, (dx, dy), (x, y) in cells(4, 8):
        long = 1.125 if abs(dx) + abs(dy) > 2 else 3.375
        drawing.note(f"the edge from the first to the second point goes by {dx} {dy}")
        drawing.paint(PAINTS[i % 4])
        size = 1 if abs(dx) + abs(dy) > 2 else 3
        drawing.face((x - long * dx, y - long * dy), (x + long * dx, y + long * dy),
                     (x - size * dy + 0.125, y + size * dx + 0.125))
    yield drawing.case(
        "Edges in sixteen directions run through pixel centres, with the triangle on their right: "
        "left edges and level top edges cover those centres, all others don't.")
    for samples, k in ((2, 1), (4, 0), (8, 7), (16, 15)):
        yield drawing.case(
            f"Edges in sixteen directions run through sample {k} of {samples}, with the other samples beside them.",
            f"directions-{samples}", samples=samples, shift=at_sample(samples, k))


def corners():
    drawing = Drawing("corners", 32, 32)
    for i, (dx, dy), (x, y) in cells(4, 8):
        size = 1 if abs(dx) + abs(dy) > 2 else 3
        drawing.note(f"the edge from the first to the second point goes by {dx} {dy}")
        drawing.paint(PAINTS[i % 4])
        drawing.face((x - size * dx, y - size * dy), (x + size * dx, y + size * dy),
                     (x - size * dy, y + size * dx))
    yield drawing.case(
        "All three corners of each triangle lie on pixel centres, in sixteen orientations: a "
        "corner covers its centre only where both of its edges do.")
    yield drawing.case("All three corners of each triangle lie on sample 3 of 8, in sixteen "
                       "orientations.", "corners-8", samples=8,
                       shift=at_sample(8, 3))


def tiny():
    drawing = Drawing("tiny", 16, 4)
    for i, (dx, dy) in enumerate(DIRECTIONS):
        a, b, c = (-dx / 64, -dy / 64), (dx / 64, dy / 64), (-dy / 32, dx / 32)
        drawing.note(f"with an edge by {dx} {dy}")
        drawing.paint(PAINTS[i % 4])
        for row, (x, y) in enumerate((a, b, c, (0, 0))):
            at = (i + 0.5 - x, row + 0.5 - y)
            drawing.face(*((at[0] + px, at[1] + py) for px, py in (a, b, c)))
    yield drawing.case(
        "A tiny triangle in each pixel touches the centre with its first corner in row 0, its "
        "second in row 1, its third in row 2, and with the middle of an edge in row 3.")


def orders():
    drawing = Drawing("orders", 24, 16)
    triangle = [(1.5, 1.5), (6.5, 2.5), (2.5, 6.5)]
    for i, order in enumerate(((0, 1, 2), (1, 2, 0), (2, 0, 1), (0, 2, 1), (2, 1, 0), (1, 0, 2))):
        row, column = divmod(i, 3)
        drawing.note(f"corners {order[0]} {order[1]} {order[2]}")
        drawing.paint(PAINTS[i % 4])
        drawing.face(*((triangle[j][0] + 8 * column, triangle[j][1] + 8 * row) for j in order))
    yield drawing.case("One triangle in all six orders of its corners, so in both windings, covers "
                       "the same pixels.")


def fans():
    drawing = Drawing("fan", 17, 17)
    for i, rim in enumerate(ON_CENTRES):
        ahead = ON_CENTRES[(i + 1) % 16]
        drawing.paint(FILMS[i % 2 + i % 3 * 2])
        ends = [(8.5 + rim[0], 8.5 + rim[1]), (8.5 + ahead[0], 8.5 + ahead[1])]
        drawing.face((8.5, 8.5), *(ends if i % 3 else reversed(ends)))
    yield drawing.case(
        "Sixteen films meet in a vertex on a pixel centre, and all spokes run through centres: "
        "each pixel is covered by one of them and none twice.")
    yield drawing.case("The fan of sixteen films about sample 4 of 8.", "fan-8", samples=8,
                       shift=at_sample(8, 4))
    yield drawing.case("The fan of sixteen films about sample 12 of 16, on the left side of its pixel.",
                       "fan-16", samples=16, shift=at_sample(16, 12))

    drawing = Drawing("polygon", 17, 17)
    drawing.paint("white_film")
    drawing.face(*((8.5 + x, 8.5 + y) for x, y in ON_CENTRES))
    yield drawing.case(
        "One face of sixteen corners on pixel centres, some of them in one line, is a film of even "
        "brightness; its first triangles have no area.")


def squares():
    drawing = Drawing("squares", 20, 10)
    left = 0.5
    for side in (1, 2, 3, 4):
        drawing.note(f"{side} pixels wide, above in one winding and below in the other")
        drawing.paint(PAINTS[side - 1])
        for top, turned in ((0.5, False), (5.5, True)):
            corners = [(left, top), (left + side, top), (left + side, top + side),
                       (left, top + side)]
            drawing.face(*(reversed(corners) if turned else corners))
        left += side + 2
    yield drawing.case("Squares with corners on pixel centres cover as many pixels as they have "
                       "area: those of their left and top sides, not of their right and bottom.")

    drawing = Drawing("tiles", 9, 9)
    for row in range(9):
        for column in range(9):
            drawing.paint(FILMS[(column + 2 * row) % 6])
            drawing.square(column - 0.5, row - 0.5, column + 0.5, row + 0.5)
    yield drawing.case("Square films between the pixel centres: each centre belongs to the square "
                       "of which it is the left top corner.")


def shared_edges():
    drawing = Drawing("shared-edges", 32, 32)
    for i, (dx, dy), (x, y) in cells(4, 8):
        size = 3 if abs(dx) + abs(dy) <= 2 else 1
        one, other = (x - size * dx, y - size * dy), (x + size * dx, y + size * dy)
        across = (size * dy + 0.25, -size * dx + 0.125)
        drawing.note(f"an edge by {dx} {dy}")
        drawing.paint("red_film")
        drawing.face(one, other, (x - across[0], y - across[1]))
        drawing.paint("green_film")
        drawing.face(*((one, other) if i % 2 else (other, one)), (x + across[0], y + across[1]))
    yield drawing.case("Two films share an edge through pixel centres, in sixteen directions: each "
                       "centre on it is red or green, none both and none dark.")

    drawing = Drawing("junction", 16, 16)
    drawing.note("one triangle on the left, three on the right whose corners lie on its edge")
    drawing.paint("red_film")
    drawing.face((0.5, 0.5), (12.5, 15.5), (0.5, 15.5))
    for i, film in enumerate(("green_film", "blue_film", "yellow_film")):
        drawing.paint(film)
        drawing.face((0.5 + 4 * i, 0.5 + 5 * i), (4.5 + 4 * i, 5.5 + 5 * i), (15.5, 0.5))
    yield drawing.case("One edge has three on its other side, with corners in its middle that lie "
                       "exactly on it: no gap, and no pixel twice.")
    yield drawing.case("One edge has three on its other side, with corners in its middle, through "
                       "sample 5 of 16.", "junction-16", samples=16,
                       shift=at_sample(16, 5))


def mesh():
    drawing = Drawing("mesh", 22, 22)
    state = 1

    def draw(below):
        nonlocal state
        state = (1664525 * state + 1013904223) % 2 ** 32
        return (state >> 16) % below

    points = {}
    for row in range(6):
        for column in range(6):
            x, y = 1.5 + 4 * column - column // 5, 1.5 + 4 * row - row // 5
            if 0 < row < 5 and 0 < column < 5:
                if (row + column) % 3:
                    x, y = x + draw(257) / 256 - 0.5, y + draw(257) / 256 - 0.5
                else:
                    x, y = x + draw(3) - 1, y + draw(3) - 1
            points[row, column] = x, y
    for row in range(5):
        for column in range(5):
            a, b = points[row, column], points[row, column + 1]
            c, d = points[row + 1, column + 1], points[row + 1, column]
            halves = [(a, b, c), (a, c, d)] if draw(2) else [(a, b, d), (b, c, d)]
            for half in halves:
                drawing.paint(FILMS[draw(6)])
                drawing.face(*(reversed(half) if draw(2) else half))
    yield drawing.case("A mesh of fifty films in mixed windings, most of whose vertices lie on "
                       "pixel centres: each pixel of it is covered once.")
    for samples in (4, 8, 16):
        yield drawing.case(f"The mesh of fifty films with {samples} samples: each sample is covered once.",
                           f"mesh-{samples}", samples=samples, shift=at_sample(samples, 2))


def slivers():
    drawing = Drawing("slivers", 32, 32)
    for i, (dx, dy), (x, y) in cells(4, 8):
        long = 1 if abs(dx) + abs(dy) > 2 else 3
        drawing.note(f"by {dx} {dy}, and 1/256 pixel wide at its end")
        drawing.paint(PAINTS[i % 4])
        drawing.face((x - long * dx, y - long * dy), (x + long * dx, y + long * dy),
                     (x + long * dx - (dy > 0) * STEP + (dy < 0) * STEP,
                      y + long * dy + (dx > 0) * STEP - (dx < 0) * STEP))
    yield drawing.case("Slivers about 1/256 pixel wide run through pixel centres in sixteen "
                       "directions; they cover those that lie on a left or a top edge.")

    drawing = Drawing("slivers-between", 16, 16)
    for i in range(8):
        drawing.paint(PAINTS[i % 4])
        drawing.note(f"beside the centres of column {2 * i + 1}")
        x = 2 * i + 1.5
        drawing.face((x - STEP, 0), (x + (STEP if i % 2 else 0), 16), (x - STEP, 16))
    yield drawing.case("Slivers that begin 1/256 pixel left of a column of centres: those that "
                       "reach 1/256 beyond it cover its lower half, those that end on it nothing.")


def no_area():
    drawing = Drawing("no-area", 16, 8)
    drawing.note("three points in a row")
    drawing.paint("red")
    drawing.face((0.5, 0.5), (7.5, 0.5), (3.5, 0.5))
    drawing.face((0.5, 0.5), (0.5, 7.5), (0.5, 3.5))
    drawing.face((0.5, 0.5), (6.5, 6.5), (3.5, 3.5))
    drawing.note("two points in one place, and all three")
    drawing.face((1.5, 2.5), (7.5, 6.5), (1.5, 2.5))
    drawing.face((2.5, 2.5), (2.5, 2.5), (2.5, 2.5))
    drawing.note("points in a row in the scene that are rounded to one place each")
    drawing.face((4.5, 1.5), (4.5 + STEP / 4, 1.5), (4.5, 1.5 + STEP / 4))
    drawing.note("for comparison, a triangle with the least area there is")
    drawing.paint("green")
    drawing.face((12.5, 4.5), (12.5 + STEP, 4.5), (12.5, 4.5 + STEP))
    yield drawing.case("Triangles without area cover nothing, though pixel centres lie on them; "
                       "one with an area of 1/131072 pixel covers the centre at its left top "
                       "corner.")


def cases():
    for part in (directions, corners, tiny, orders, fans, squares, shared_edges, mesh, slivers,
                 no_area):
        yield from part()
