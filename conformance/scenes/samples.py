"""The places of the samples: edges that move past each of them."""

from scenes.drawing import SAMPLES, Drawing

COLOURS = ["red", "green", "blue", "yellow", "cyan", "magenta", "white", "grey"]
STEP = 1 / 256


def table():
    """White strips end i/16 into the pixels of column i, and black ones begin j/16 into row j."""
    drawing = Drawing("table", 17, 17)
    drawing.note("in column i, white from the left side of the pixels to i/16 of their width")
    drawing.paint("white")
    for i in range(1, 17):
        drawing.square(i, 0, i + i / 16, 17)
    drawing.note("in row j, black from j/16 of the height of the pixels to their bottom")
    drawing.paint("black")
    for j in range(16):
        drawing.square(0, j + j / 16, 17, j + 1)
    for samples in SAMPLES:
        yield drawing.case(
            f"With --samples {samples}, samples left of i/16 and above j/16 of "
            "the pixel are white in column i and row j, counted from 0.",
            f"table-{samples}", samples=samples)


def steps():
    for samples, offsets in SAMPLES.items():
        drawing = Drawing(f"steps-{samples}", 3 * samples, 4)
        for k, (right, down) in enumerate(offsets):
            drawing.note(f"to sample {k}")
            drawing.paint(COLOURS[k % 8])
            for step in (-1, 0, 1):
                left = 3 * k + 1 + step
                x, y = 0.5 + right / 16 + step * STEP, 0.5 + down / 16 + step * STEP
                drawing.square(left, 0, left + x, 1)
                drawing.square(left + x, 1, left + 1, 2)
                drawing.square(left, 2, left + 1, 2 + y)
                drawing.square(left, 3 + y, left + 1, 4)
        yield drawing.case(
            "Three columns for each sample, with edges 1/256 pixel before it, on it and behind it: "
            "right, left, bottom and top sides in rows 0 to 3.", samples=samples)


def dots():
    for samples, offsets in SAMPLES.items():
        drawing = Drawing(f"dots-{samples}", 3, 3)
        for k, (right, down) in enumerate(offsets):
            drawing.note(f"about sample {k}")
            drawing.paint(COLOURS[k % 8])
            x, y = 1.5 + right / 16, 1.5 + down / 16
            drawing.face((x - STEP, y - STEP), (x + 2 * STEP, y - STEP), (x - STEP, y + 2 * STEP))
        yield drawing.case(
            "A tiny triangle about each sample of the middle pixel: triangle k covers sample k "
            "alone.", command="pick 1,1", samples=samples)


def cases():
    for part in (table, steps, dots):
        yield from part()
