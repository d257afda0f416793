"""Places in 1/256 pixel: edges and corners that move by one step, and what is rounded to a step."""

from scenes.drawing import Case, Drawing, lines, NODES

STEP = 1 / 256


def edges():
    drawing = Drawing("edges", 17, 4)
    for i in range(17):
        x = y = 0.5 + (i - 8) * STEP
        drawing.note(f"{i - 8} steps from the centre")
        for row, colour in enumerate(("red", "green", "blue", "yellow")):
            sides = [(x, 0, 1, 1), (0, 0, x, 1), (0, y, 1, 1), (0, 0, 1, y)][row]
            drawing.paint(colour)
            drawing.square(i + sides[0], row + sides[1], i + sides[2], row + sides[3])
    yield drawing.case("Left, right, top and bottom sides in rows 0 to 3 move past the centre in "
                       "steps of 1/256 pixel; in column 8 they are on it.")


def diagonals():
    drawing = Drawing("diagonals", 17, 4)
    for i in range(17):
        step = (i - 8) * STEP
        drawing.note(f"{i - 8} steps to the right")
        for row, (dx, dy) in enumerate(((1, 1), (1, -1), (-1, 1), (-1, -1))):
            drawing.paint(("red", "green", "blue", "yellow")[row])
            x, y = i + 0.5 + step, row + 0.5
            drawing.face((x - dx / 4, y + dy / 4), (x + dx / 4, y - dy / 4),
                         (x + dx / 4, y + dy / 4))
    yield drawing.case("Four diagonal edges, one in each row, move past the centre in steps of "
                       "1/256 pixel; in column 8 they are on it.")


def corners():
    drawing = Drawing("corner-steps", 11, 11)
    drawing.paint("white")
    for j in range(11):
        for i in range(11):
            x, y = i + 0.5 + (i - 5) * STEP, j + 0.5 + (j - 5) * STEP
            drawing.face((x, y), (x + 3 * STEP, y + 9 * STEP), (x - 4 * STEP, y + 7 * STEP))
    yield drawing.case("A small triangle in each pixel, whose upper corner lies i - 5 steps of "
                       "1/256 pixel right of the centre and j - 5 below it, in column i and row j.")


def slopes():
    drawing = Drawing("slopes", 16, 16)
    for j in range(16):
        drawing.paint("cyan" if j % 2 else "white")
        drawing.face((0, j + 0.5 - j * STEP), (16, j + 0.5 + (15 - j) * STEP), (16, j + 1),
                     (0, j + 1))
    yield drawing.case("Top sides that fall by 15/256 pixel over sixteen pixels, from j/256 above "
                       "the centres of row j on: where each passes them tells it.")


def rounding():
    drawing = Drawing("rounding", 34, 4)
    for i in range(34):
        x = y = 0.5 + (i % 17 - 8) * STEP / 4
        drawing.note(f"{i % 17 - 8} quarters of a step from the centre")
        for row, colour in enumerate(("red", "green", "blue", "yellow")):
            sides = [(x, 0, 1, 1), (0, y, 1, 1), (0, y, 1, 1), (0, 0, x, 1)][row]
            drawing.paint(colour)
            drawing.square(i + sides[0], row + sides[1], i + sides[2], row + sides[3])
    yield drawing.case("Left, top, top and right sides in quarters of 1/256 pixel: places are "
                       "rounded to the nearest step, and halves away from the middle of the image.")


def distances():
    body = ["# distances", "# Squares with corners at whole numbers, seen from distances that "
            "divide them with a remainder.", "mtllib paints.mtl"]
    colours = ["red_film", "green_film", "blue_film", "yellow_film", "cyan_film", "magenta_film"]
    for i in range(30):
        away, x, y = 3 + i, 1 + i % 5 - 3, i // 5 - 3
        body += ["", f"usemtl {colours[i % 6]}"]
        for right, down in ((0, 0), (2, 0), (2, 2), (0, 2)):
            body.append(f"v {x + right} {-(y + down)} {-away}")
        body.append("f -4 -3 -2 -1")
    files = {"distances.obj": lines(*body), **Drawing("", 1, 1).files()}
    words = f"--size 32x32 --samples 16 --move 0,0,0 --focal 3 --nodes {NODES}"
    yield Case("distances", "Squares at distances of 3 to 32 with corners at whole numbers: each "
               "place is rounded to 1/256 pixel by itself.",
               f"abuf render {words} < distances.obj", files)


def cases():
    for part in (edges, diagonals, corners, slopes, rounding, distances):
        yield from part()
