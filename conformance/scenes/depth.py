"""Depth and order: surfaces that cross, surfaces in one plane, and depth at its two ends."""

from scenes.drawing import NODES, Case, Drawing, lines


def pane(drawing, colour, left, right, top=1, sides=(1, 1, 15, 15)):
    """A pane whose distance goes from the left to the right, and is multiplied by top above."""
    drawing.paint(colour)
    x0, y0, x1, y1 = sides
    drawing.face((x0, y0, left * top), (x1, y0, right * top), (x1, y1, right), (x0, y1, left))


def crossing():
    drawing = Drawing("crossing", 16, 16)
    pane(drawing, "red", 0.75, 1.25, 1.25)
    pane(drawing, "green", 1.25, 0.75)
    pane(drawing, "blue_film", 1.25, 1.125, 0.625)
    for samples in (1, 2, 4, 8, 16):
        shows = ("Three panes cross, and each is on top where it is nearer." if samples == 1 else
                 f"Three panes cross, with {samples} samples: in a pixel that is crossed each sample has its "
                 "own order.")
        yield drawing.case(shows, f"crossing-{samples}", samples=samples)
    yield drawing.case("The order in each sample of a pixel in which panes cross, with the depth "
                       "of each pane there.", "crossing-keys", command="pick 8,4", samples=16)


def one_pixel():
    drawing = Drawing("in-a-pixel", 4, 4)
    directions = [(1, 0), (1, 1), (0, 1), (-1, 1), (-1, 0), (-1, -1), (0, -1), (1, -1),
                  (2, 1), (1, 2), (-1, 2), (-2, 1), (-2, -1), (-1, -2), (1, -2), (2, -1)]
    for i, (dx, dy) in enumerate(directions):
        row, column = divmod(i, 4)
        drawing.note(f"the green pane is nearer towards {dx} {dy}")
        drawing.paint("red")
        drawing.square(column, row, column + 1, row + 1, 0.5)
        drawing.paint("green")
        corners = [(column + x, row + y) for x, y in ((0, 0), (1, 0), (1, 1), (0, 1))]
        middle = 0.5 + (i % 5 - 2) / 256
        drawing.face(*((x, y, middle - ((x - column - 0.5) * dx + (y - row - 0.5) * dy) / 32)
                       for x, y in corners))
    for samples in (4, 16):
        yield drawing.case("A level pane and a tilted one cross inside each pixel, in sixteen "
                           "directions.", f"in-a-pixel-{samples}", samples=samples)


def steep():
    drawing = Drawing("steep", 8, 8)
    for i, away in enumerate((9 / 128, 5 / 64, 3 / 32, 7 / 64, 1 / 8, 3 / 16, 5 / 16, 3 / 4)):
        drawing.note(f"column {i}")
        drawing.paint("white")
        drawing.square(i, 0, i + 1, 8, away)
        drawing.paint("red_film")
        drawing.face((i, 0, 0.0625), (i + 1, 0, 16), (i + 1, 8, 16), (i, 8, 0.0625))
    yield drawing.case("Films as wide as a pixel run from close by to far away, through white "
                       "panes: each sample has its own order.", samples=8)


def over_the_screen():
    drawing = Drawing("perspective", 33, 9)
    drawing.note("a long pane from near on the left to far away on the right")
    pane(drawing, "white", 0.25, 4, sides=(0, 0, 33, 9))
    drawing.note("level panes at distances in even steps")
    for i in range(8):
        drawing.paint("blue" if i % 2 else "yellow")
        drawing.square(0, i + 0.5, 33, i + 1.5, 0.5 + i / 4)
    yield drawing.case("A pane that runs far away crosses level panes at distances in even steps: "
                       "depth goes with the inverse of the distance.")


def ties():
    drawing = Drawing("level-ties", 16, 16)
    for i, colour in enumerate(("red", "green", "blue", "yellow")):
        drawing.paint(colour)
        drawing.square(1 + 2 * i, 1 + 3 * (i % 3), 9 + 2 * i, 9 + 2 * i, 0.5)
    drawing.paint("white_film")
    drawing.square(4, 4, 12, 8, 0.5)
    yield drawing.case("Panes in one level plane: the later of the file lies on top.", samples=4)

    drawing = Drawing("same-corners", 24, 8)
    corners = [(0.5, 0.5, 0.5), (7, 2, 1.75), (2, 7, 0.875)]
    colours = ("red", "green", "blue", "yellow", "cyan", "magenta")
    orders = ((0, 1, 2), (1, 2, 0), (2, 0, 1), (0, 2, 1), (2, 1, 0), (1, 0, 2))
    for i in range(3):
        drawing.note(f"six orders of the corners, with order {2 * i} on top")
        for j in range(6):
            order = orders[(2 * i + 1 + j) % 6]
            drawing.paint(colours[(j + 2 * i + 1) % 6])
            drawing.face(*((corners[k][0] + 8 * i, *corners[k][1:]) for k in order))
    yield drawing.case("Tilted triangles with the same three corners, in any order of them, have "
                       "equal depths: the last of the file covers the others.", samples=4)


def ties_on_a_line():
    for name, first, second in (("line-of-ties", "red", "green"),
                                ("line-of-ties-turned", "green", "red")):
        drawing = Drawing(name, 17, 9)
        for colour in (first, second):
            ends = (0.5, 1.5) if colour == "red" else (1.5, 0.5)
            pane(drawing, colour, *ends, sides=(1, 1, 16, 8))
        yield drawing.case(
            f"Two panes cross in the column of centres in the middle, where their depths are "
            f"equal: there the later one of the file, the {second} one, lies on top.")
    drawing = Drawing("rounded-ties", 16, 16)
    drawing.note("depths are 52 to 48 from the left to the right")
    pane(drawing, "red", 2500, 2700)
    drawing.note("depths are 50")
    pane(drawing, "green", 2600, 2600, sides=(1, 1, 15, 8))
    drawing.note("depths are 48 to 52")
    pane(drawing, "blue", 2700, 2500, sides=(1, 8, 15, 15))
    yield drawing.case("Panes so far away that depths are rounded down to a few numbers: where "
                       "they are equal, the later one lies on top.", samples=2,
                       more="--near 0.0625")


def decal():
    body = ["# decal", "# Two triangles, and a square in their plane that is cut the other way.",
            "mtllib paints.mtl",
            "v -3 -1.3 1", "v 3 -0.9 -3", "v 3.4 2 -1.6", "v -2.6 1.6 2.4",
            "usemtl white", "f 1 2 3 4"]
    # Points of the parallelogram, by shares of its sides.
    origin, side, up = (-3, -1.3, 1), (6, 0.4, -4), (0.4, 2.9, 1.4)
    for a, b in ((0.125, 0.25), (0.75, 0.125), (0.875, 0.75), (0.25, 0.875)):
        place = (origin[i] + a * side[i] + b * up[i] for i in range(3))
        body.append("v {:.6f} {:.6f} {:.6f}".format(*place))
    body += ["usemtl red", "f 6 7 8 5"]
    files = {"decal.obj": lines(*body), **Drawing("", 1, 1).files()}
    for samples in (1, 8):
        words = f"--size 48x32 --samples {samples} --focal 1.5 --nodes {NODES}"
        yield Case(f"decal-{samples}", "A red square in the tilted plane of a white one: corners "
                   "and depths are rounded by themselves, so the order changes from sample to "
                   "sample.",
                   f"abuf render {words} < decal.obj", files)


def ends():
    drawing = Drawing("near-end", 16, 8)
    drawing.note("on the near plane, where the depth is 16777215")
    drawing.paint("red")
    drawing.square(1, 1, 9, 5, 1 / 32)
    drawing.paint("green")
    drawing.square(5, 3, 13, 7, 1 / 32)
    drawing.note("one unit of 1/65536 behind it")
    drawing.paint("blue")
    drawing.square(7, 0, 11, 8, 1 / 32 + 1 / 4 / 65536)
    yield drawing.case("Panes on the near plane have the greatest depth, and a later one just "
                       "behind them lies beneath.")

    far = "32767.9"
    body = ["# far-end", "# The last plane is as far away as can be; depths there are 16 of "
            "16777215.", "mtllib paints.mtl"]
    for i, (colour, z) in enumerate((("red", -32767.9), ("green", -32767.5), ("blue", -31000),
                                     ("yellow", -32767.9), ("cyan", -30800))):
        body += ["", f"usemtl {colour}"]
        left = -30000 + 11000 * i
        for x, y in ((left, 24000), (left + 16000, 20000 - 3000 * i), (left + 15000, -24000),
                     (left - 2000, -20000)):
            body.append(f"v {x} {y} {z}")
        body.append("f -4 -3 -2 -1")
    files = {"far-end.obj": lines(*body), **Drawing("", 1, 1).files()}
    words = (f"--size 24x16 --samples 4 --move 0,0,-{far} --focal 2 --near 0.0625 "
             f"--nodes {NODES}")
    yield Case("far-end", "Panes at the farthest distance: depths of different distances are "
               "rounded to one number, and then the later pane lies on top.",
               f"abuf render {words} < far-end.obj", files)


def any_order():
    films = [("red_film", 0.75, 1.5, 1.125), ("green_film", 1.5, 0.5, 1), ("blue_film", 1, 1, 0.75),
             ("yellow_film", 0.625, 0.875, 1.25)]
    for name, order in (("any-order", (0, 1, 2, 3)), ("any-order-turned", (2, 0, 3, 1))):
        drawing = Drawing(name, 16, 16)
        for i in order:
            pane(drawing, *films[i])
        yield drawing.case("Four films cross each other; in another order of the file they give "
                           "the same image.", samples=4)


def cases():
    for part in (crossing, one_pixel, steep, over_the_screen, ties, ties_on_a_line, decal, ends,
                 any_order):
        yield from part()
