"""Pools: each primitive that covers a sample of a pixel takes one node there."""

from scenes.drawing import Case, Drawing


def full_and_one_more(drawing, count, shows, **words):
    """A case in which the pool is just full, and one with a node less."""
    yield drawing.case(f"{shows} {count:,} nodes are just enough.", nodes=count, **words)
    yield drawing.case(f"{shows} One node less isn't enough.", f"{drawing.name}-one-more",
                       nodes=count - 1, status=5,
                       error=f"pool full: {count} fragments, {count - 1} nodes", **words)


def cases():
    drawing = Drawing("squares", 8, 8)
    for i, film in enumerate(("red_film", "green_film", "blue_film")):
        drawing.paint(film)
        drawing.square(1 + i, 1 + i, 5 + i, 5 + i)
    yield from full_and_one_more(drawing, 48, "Three squares of 16 pixels.")

    drawing = Drawing("hidden", 8, 8)
    drawing.paint("red_film")
    drawing.square(0, 0, 4, 4)
    drawing.paint("white")
    drawing.square(0, 0, 4, 4, 0.5)
    yield from full_and_one_more(drawing, 32, "What lies behind an opaque square takes its nodes.")

    drawing = Drawing("clear", 8, 8, "clear.mtl", "newmtl clear\nd 0\n")
    drawing.paint("clear")
    drawing.square(2, 2, 6, 6)
    yield from full_and_one_more(drawing, 16, "An invisible square takes its nodes.")

    drawing = Drawing("samples", 8, 8)
    drawing.paint("red_film")
    drawing.face((1.5, 1.5), (5.5, 1.5), (1.5, 5.5))
    yield from full_and_one_more(drawing, 15, "A pixel of which some samples are covered takes one "
                                 "node.", samples=16)

    drawing = Drawing("diagonal", 8, 8)
    drawing.paint("white")
    drawing.square(0, 0, 8, 8)
    yield from full_and_one_more(drawing, 72, "The two triangles of a square take two nodes where "
                                 "both of them cover samples of a pixel.", samples=4)

    drawing = Drawing("outside", 8, 8)
    drawing.paint("white")
    drawing.square(6, 6, 40, 40)
    drawing.square(-20, -20, 0, 8)
    yield from full_and_one_more(drawing, 4, "What lies outside of the image takes no nodes.")

    drawing = Drawing("empty-pixel", 8, 8)
    drawing.paint("red_film")
    drawing.square(0, 0, 3, 3)
    yield from full_and_one_more(drawing, 9, "The pool holds the fragments of all pixels, though "
                                 "the picked one has none.", command="pick 7,7")

    drawing = Drawing("bands", 8, 8)
    for i, film in enumerate(("red_film", "green_film", "blue_film")):
        drawing.paint(film)
        drawing.square(1 + i, 1 + i, 5 + i, 5 + i)
    shows = "Three squares of 16 pixels in three bands, of 2, 3 and 3 rows."
    yield drawing.case(f"{shows} 32 nodes are just enough for the second.", nodes=32, more="--bands 3")
    yield drawing.case(f"{shows} One node less isn't enough for it.", "bands-one-more", nodes=31, status=5,
                       error="band 2 full: 32 fragments, 31 nodes", more="--bands 3")
    yield drawing.case("Three squares of 16 pixels in layers, which need no nodes.", "layers", nodes=1, more="--peel")

    yield Case("demo", "The scene of 200 triangles that demo makes.",
               "abuf demo 200 --size 64x48 --samples 4 --nodes 8192")
    yield Case("demo-one-more", "The scene of 200 triangles that demo makes, with a pool that is too small.",
               "abuf demo 200 --size 64x48 --samples 4 --nodes 1000", status=5,
               error="pool full: 4787 fragments, 1000 nodes")
