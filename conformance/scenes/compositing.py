"""Compositing: alpha, the operator over with its rounding, layers, backgrounds, image values."""

from scenes.drawing import Case, Drawing


def paint(name, colour, alpha=None):
    return f"newmtl {name}\nKd {colour}\n" + ("" if alpha is None else f"d {alpha}\n")


def share(value):
    """The text of a number of 1/65535 that is read as this one."""
    return f"{value / 65535:.10f}"


def alphas():
    steps = [0, 1, 2, 257, 16384, 21845, 32767, 32768, 43690, 49152, 65278, 65533, 65534, 65535]
    library = "# Alpha in units of 1/65535 by the number in the name.\n"
    library += "".join(paint(f"a{step}", "1 0.6 0.2", share(step)) for step in steps)
    library += paint("white", "1") + paint("middle", "0.2 0.4 0.6")
    drawing = Drawing("alphas", 14, 6, "alphas.mtl", library)
    drawing.note("below: white, a colour, and nothing")
    drawing.paint("white")
    drawing.square(0, 0, 14, 2)
    drawing.paint("middle")
    drawing.square(0, 2, 14, 4)
    drawing.note("above: films whose alpha grows from 0 to full")
    for i, step in enumerate(steps):
        drawing.paint(f"a{step}")
        drawing.square(i, 0, i + 1, 6)
    yield drawing.case("Films from invisible on the left to opaque on the right lie on white, on a "
                       "colour and on the black background.")
    yield drawing.case("Films from invisible to opaque on white, on a colour and on black, as 16-bit values.",
                       "alphas-65535", more="--maxval 65535")


def over():
    library = "# Films of many alphas and colours, in units of 1/65535.\n"
    values = [1, 127, 128, 129, 255, 256, 257, 1023, 4097, 9999, 21845, 32767, 32768, 50000, 65407,
              65534]
    for i, value in enumerate(values):
        other = values[(5 * i + 3) % 16]
        library += paint(f"c{i}", f"{share(value)} {share(other)} {share(65535 - other)}",
                         share(values[(7 * i + 2) % 16]))
        library += paint(f"o{i}", f"{share(other)} {share(65535 - value)} {share(value)}")
    drawing = Drawing("over", 16, 16, "over.mtl", library)
    for j in range(16):
        drawing.paint(f"o{j}")
        drawing.square(0, j, 16, j + 1)
    for i in range(16):
        drawing.paint(f"c{i}")
        drawing.square(i, 0, i + 1, 16)
    drawing.note("a second film over the lower half")
    drawing.paint("c9")
    drawing.square(0, 8, 16, 16)
    yield drawing.case("A film in each column over a colour in each row, as 16-bit values: both "
                       "products of over are rounded by themselves, in every step.",
                       more="--maxval 65535")
    yield drawing.case("A film in each column over a colour in each row, on a background and with 4 samples.", "over-4", samples=4,
                       more="--maxval 65535 --background 0.3,0.6,0.9")


def layers():
    for count, alpha in ((2, "0.5"), (16, "0.2"), (200, "0.02"), (2000, "0.004")):
        library = "".join(paint(name, colour, alpha) for name, colour in
                          (("red", "1 0.1 0"), ("green", "0 1 0.1"), ("blue", "0.1 0 1")))
        drawing = Drawing(f"layers-{count}", 4, 4, f"layers-{count}.mtl", library)
        drawing.note("the nearest first, so each layer belongs beneath all those above it")
        for i in range(count):
            drawing.paint(("red", "green", "blue")[i % 3])
            away = 1 + i / 1024
            drawing.face((-i % 4, -1, away), (12, -1, away), (-i % 4, 11, away))
        yield drawing.case(f"{count:,} films lie behind each other, the nearest first in the file; "
                           "each step is rounded.", more="--maxval 65535")
        if count == 200:
            yield drawing.case(f"{count} films lie behind each other, as 8-bit values.", "layers-200-8-bit")


def order():
    drawing = Drawing("order", 12, 8)
    drawing.note("a red film before a green one, once the red and once the green first in the file")
    for left, first in ((1, "red_film"), (7, "green_film")):
        for film in (first, "green_film" if first == "red_film" else "red_film"):
            drawing.paint(film)
            drawing.square(left, 1, left + 4, 7, 0.75 if film == "red_film" else 0.875)
    yield drawing.case("A red film before a green one gives one colour, whichever is the first of "
                       "the file.")
    drawing = Drawing("hidden", 12, 8)
    drawing.paint("red_film")
    drawing.square(1, 1, 8, 7, 0.5)
    drawing.paint("white")
    drawing.square(3, 2, 10, 6, 0.75)
    drawing.paint("green_film")
    drawing.square(2, 3, 11, 5, 0.875)
    drawing.paint("blue")
    drawing.square(4, 1, 6, 7)
    yield drawing.case("An opaque square hides what lies behind it, films and all, and is tinted "
                       "by the film before it.")


def clear():
    library = paint("clear", "1 1 1", "0") + paint("nearly", "1 1 1", "1e-5")
    library += paint("red", "1 0 0")
    drawing = Drawing("clear", 8, 8, "clear.mtl", library)
    drawing.paint("red")
    drawing.square(2, 2, 6, 6)
    drawing.paint("clear")
    drawing.square(0, 0, 8, 4, 0.5)
    drawing.paint("nearly")
    drawing.square(0, 4, 8, 8, 0.5)
    yield drawing.case("An invisible film changes nothing; one with the least alpha, 1/65535, "
                       "changes 16-bit values.", more="--maxval 65535 --background 0.5,0.5,0.5")


def backgrounds():
    drawing = Drawing("background", 8, 8)
    drawing.paint("red_film")
    drawing.square(1, 1, 5, 5)
    drawing.paint("white")
    drawing.square(4, 4, 7, 7)
    yield drawing.case("A background is seen beside the scene and through its films.",
                       more="--background 0.2,0.4,0.6")
    yield drawing.case("The parts of a background are held into 0 to 1.", "background-held",
                       more="--background=2,-1,0.5")
    yield drawing.case("With samples, a background is seen between the edges.", "background-8",
                       samples=8, shift=(0.4375, 0.3125), more="--background 0,0,1")
    empty = {"empty.obj": "# empty\n# A scene without faces.\nv 0 0 0\n"}
    words = "render --size 6x4 --nodes 1 --background 0.2,0.4,0.6"
    yield Case("empty", "A scene without faces is the background.", f"abuf {words} < empty.obj",
               empty)
    yield Case("empty-65535", "A scene without faces is the background, as 16-bit values.",
               f"abuf {words} --maxval 65535 < empty.obj", empty)


def values():
    steps = [0, 127, 128, 129, 130, 256, 257, 385, 386, 387, 32767, 32768, 65020, 65148,
             65406, 65407]
    library = "# Greys in units of 1/65535, by the number in the name.\n"
    library += "".join(paint(f"g{step}", share(step)) for step in steps)
    drawing = Drawing("values", 16, 4, "values.mtl", library)
    for i, step in enumerate(steps):
        drawing.paint(f"g{step}")
        drawing.square(i, 0, i + 1, 4)
    yield drawing.case("Greys beside the places where 8-bit values change: each is the nearest of "
                       "256 values.")
    yield drawing.case("Greys beside the places where 8-bit values change, as 16-bit values, which are those of "
                       "the paints.", "values-65535",
                       more="--maxval 65535")
    for samples in (2, 4, 8, 16):
        yield drawing.case("Greys moved by 5/16 pixel to the right and down: the mean of "
                           f"{samples} "
                           "samples is rounded, halves upwards.", f"values-{samples}",
                           samples=samples, shift=(0.3125, 0.3125), more="--maxval 65535")
    yield drawing.case("The mean of 8 samples as 8-bit values.", "values-8-8-bit", samples=8,
                       shift=(0.3125, 0.3125))


def cases():
    for part in (alphas, over, layers, order, clear, backgrounds, values):
        yield from part()
