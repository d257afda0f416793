"""Worked commands with the answers that abuf must give, each written out.

A row is a command, the scene on its standard input, the libraries and the paths in its working
folder, and the answer: the status, the bytes of standard output and the message on standard error.
"""

from dataclasses import dataclass, field


@dataclass
class Row:
    title: str  # what the row shows
    words: list
    scene: bytes
    status: int = 0
    out: bytes = b""
    err: bytes = b""
    libraries: dict = field(default_factory=dict)  # and paths
    stdin: str = "scene"  # or "fault": a descriptor from which no read succeeds
    stdout: str = "taken"  # or "full": a device that takes nothing
    is_slow: bool = False


@dataclass
class Agreement:
    """Commands that must give one and the same answer with each of these further words."""

    title: str
    words: list
    further: list
    out: bytes = b""  # what they give, or how it begins
    is_slow: bool = False


# ---- answers


def header(width, height, maxval=255):
    text = f"P7\nWIDTH {width}\nHEIGHT {height}\nDEPTH 3\nMAXVAL {maxval}\n"
    return (text + "TUPLTYPE RGB\nENDHDR\n").encode()


def picture(*rows, **colours):
    """An image of MAXVAL 255. Each row is a string with one letter per pixel: W is white, '.' is
    black, and further letters are named with their three values."""
    colours.update({"W": (255, 255, 255), ".": (0, 0, 0)})
    pixels = b"".join(bytes(colours[letter]) for row in rows for letter in row)
    return header(len(rows[0]), len(rows)) + pixels


def pixel(red, green, blue):
    """An image of one pixel."""
    return picture("p", p=(red, green, blue))


def text(*lines):
    return "".join(line + "\n" for line in lines).encode()


def in_samples(count, covering, covered):
    """The lines of pick for so many samples of which these have the same covering."""
    return [f"sample {k} {covering}" if k in covered else f"sample {k}" for k in range(count)]


# ---- scenes


def join(*lines):
    return text(*lines)


UPPER = ["v -4 4 0", "v 4 4 0", "v -4 -4 0"]
UPPER_SCENE = join(*UPPER, "f 1 2 3")
LOWER_SCENE = join("v 4 4 0", "v 4 -4 0", "v -4 -4 0", "f 1 2 3")
SQUARE = ["v -4 4 0", "v 4 4 0", "v 4 -4 0", "v -4 -4 0", "f 1 2 4", "f 2 3 4"]
SQUARE_SCENE = join(*SQUARE)
BIG = ["v -8 8 0", "v 24 8 0", "v -8 -24 0"]
LEFT_HALF_SCENE = join("v -8 8 0", "v 0 8 0", "v 0 -8 0", "v -8 -8 0", "f 1 2 3 4")
ONE_BEHIND_SCENE = join("v -1 0 3", "v 1 0 3", "v 0 1 5", "f 1 2 3")
TWO_BEHIND_SCENE = join("v 0 0 3", "v -1 1 5", "v 1 1 5", "f 1 2 3")
SHARED_CUT_SCENE = join("v -1 0 3", "v 0 0 3", "v 1 0 3", "v 0 1 5", "f 1 2 4", "f 2 3 4")
RED_SCENE = join("mtllib a.mtl", *BIG, "usemtl red", "f 1 2 3")
HALF_RED = {"a.mtl": join("newmtl red", "Kd 1 0 0", "d 0.5")}
RED_THEN_GREEN = join("mtllib a.mtl", *BIG, "usemtl red", "f 1 2 3", "usemtl green", "f 1 2 3")
GREEN_THEN_RED = join("mtllib a.mtl", *BIG, "usemtl green", "f 1 2 3", "usemtl red", "f 1 2 3")
RED_AND_GREEN = {
    "a.mtl": join("newmtl red", "Kd 1 0 0", "d 0.5", "newmtl green", "Kd 0 1 0", "d 0.5")
}
CLEAR = {"a.mtl": join("newmtl red", "d 0")}
CROSSING_SCENE = join(
    "mtllib x.mtl", "v -9 9 -0.5", "v 27 9 -0.5", "v -9 -27 -0.5", "v -16 16 -4", "v 12 4 2",
    "v -16 -48 -4", "usemtl red", "f 1 2 3", "usemtl green", "f 4 5 6"
)
CROSSING = {"x.mtl": join("newmtl red", "Kd 1 0 0", "newmtl green", "Kd 0 1 0")}
# Three planes that meet at the centre of the only pixel, where each has the depth 524287. The first
# is level. The second has 8192 more for each 1/16 pixel to the right, the third for each downwards.
PLANES = [
    "mtllib a.mtl", *BIG, "v -32 32 -4", "v 16 8 2", "v -32 -64 -4", "v -32 32 -4", "v 64 32 -4",
    "v -8 -16 2"
]
LEVEL, RIGHTWARDS, DOWNWARDS = "f 1 2 3", "f 4 5 6", "f 7 8 9"
TWO_PLANES = join(*PLANES, "usemtl red", LEVEL, "usemtl green", RIGHTWARDS)
TWO_PLANES_EXCHANGED = join(*PLANES, "usemtl green", RIGHTWARDS, "usemtl red", LEVEL)
THREE_PLANES = join(*PLANES[1:], LEVEL, RIGHTWARDS, DOWNWARDS)
OPAQUE = {"a.mtl": join("newmtl red", "Kd 1 0 0", "newmtl green", "Kd 0 1 0")}
RED_IS_OPAQUE = {"a.mtl": join("newmtl red", "Kd 1 0 0", "newmtl green", "Kd 0 1 0", "d 0.5")}
GREEN_IS_OPAQUE = {"a.mtl": join("newmtl red", "Kd 1 0 0", "d 0.5", "newmtl green", "Kd 0 1 0")}
GREEN_IS_CLEAR = {"a.mtl": join("newmtl red", "Kd 1 0 0", "newmtl green", "Kd 0 1 0", "d 0")}
FILMS = {
    "a.mtl": join("newmtl red", "Kd 1 0 0", "d 0.5", "newmtl green", "Kd 0 1 0", "d 0.5",
                  "newmtl blue", "Kd 0 0 1", "d 0.5")
}
HUGE_SCENE = join("v -32767 -32767 3.9375", "v 32767 -32767 3.9375", "v 0 32767 3.9375", "f 1 2 3")
CUBE_LINES = [
    "# Exported cube",
    "mtllib cube.mtl",
    "o Cube",
    "v 1.000000 1.000000 -1.000000",
    "v 1.000000 -1.000000 -1.000000",
    "v 1.000000 1.000000 1.000000",
    "v 1.000000 -1.000000 1.000000",
    "v -1.000000 1.000000 -1.000000",
    "v -1.000000 -1.000000 -1.000000",
    "v -1.000000 1.000000 1.000000",
    "v -1.000000 -1.000000 1.000000",
    "vn 0.0000 1.0000 0.0000",
    "vn 0.0000 0.0000 1.0000",
    "vt 0.625000 0.500000",
    "vt 0.875000 0.500000",
    "s 0",
    "usemtl Material",
    "f 1/1/1 5/2/1 7/1/1 3/2/1",
    "f 4/1/2 3/2/2 7/1/2 8/2/2",
    "f 8/1/1 7/2/1 5/1/1 6/2/1",
    "f 6/1/1 2/2/1 4/1/1 8/2/1",
    "f 2/1/1 1/2/1 3/1/1 4/2/1",
    "f 6/1/2 5/2/2 1/1/2 2/2/2",
]
CUBE_SCENE = join(*CUBE_LINES)
CUBE_LIBRARY = [
    "newmtl Material", "Ns 250.000000", "Ka 1.000000 1.000000 1.000000",
    "Kd 0.800000 0.800000 0.800000", "Ks 0.500000 0.500000 0.500000",
    "Ke 0.000000 0.000000 0.000000", "Ni 1.450000", "d 1.000000", "illum 2",
]
CUBE_MTL = {"cube.mtl": join(*CUBE_LIBRARY)}

UPPER_IMAGE = picture("WWW.", "WW..", "W...", "....")
LOWER_IMAGE = picture("...W", "..WW", ".WWW", "WWWW")
RIGHT_IMAGE = picture("WWWW", ".WWW", "..WW", "...W")
FLIPPED_IMAGE = picture("....", "W...", "WW..", "WWW.")
WHITE_IMAGE = picture(*["WWWW"] * 4)
BLACK_IMAGE = picture(*["...."] * 4)
CUBE_IMAGE = picture("....", ".gg.", ".gg.", "....", g=(204, 204, 204))


def rows():
    made = []

    def row(title, words, scene, *answer, **named):
        """The answer is the output, or the status and the message."""
        words = words.split(" ") if isinstance(words, str) else words
        if len(answer) == 1:
            made.append(Row(title, words, scene, 0, answer[0], b"", **named))
        else:
            made.append(Row(title, words, scene, answer[0], b"", text(answer[1]), **named))

    small = "render --size 4x4"
    one = "render --size 1x1"
    words_refused = (2, "words not understood")

    # the top-left rule
    row("a right edge through centres covers none of them", small, UPPER_SCENE, UPPER_IMAGE)
    row("a left edge through centres covers them", small, LOWER_SCENE, LOWER_IMAGE)
    row("each centre on a shared edge is covered once", small, SQUARE_SCENE, WHITE_IMAGE)
    row("blank lines and comments change nothing", small, b"\n# x\n" + UPPER_SCENE, UPPER_IMAGE)
    row("an empty scene is background", one, b"", pixel(0, 0, 0))
    row("a repeated corner has no area", small, join(*UPPER, "f 1 2 2"), BLACK_IMAGE)
    row("a face of no area has no fragments", small + " --nodes 1", join(*UPPER, "f 1 2 2"),
        BLACK_IMAGE)

    # the pool
    row("a pool that is just large enough", small + " --nodes 16", SQUARE_SCENE, WHITE_IMAGE)
    row("a pool that is one too small", small + " --nodes 15", SQUARE_SCENE,
        5, "pool full: 16 fragments, 15 nodes")
    row("the pool on an image that isn't cut into whole tiles", "render --size 9x9 --nodes 81",
        SQUARE_SCENE, picture(*["W" * 9] * 9))
    row("the full pool on such an image", "render --size 9x9 --nodes 80", SQUARE_SCENE,
        5, "pool full: 81 fragments, 80 nodes")
    overlap = join(*SQUARE, "f 1 2 3")
    for threads in (1, 2, 7, 64):
        row(f"overlapping faces on {threads} threads", f"{small} --threads {threads}", overlap,
            WHITE_IMAGE)
        row(f"the pool of 26 on {threads} threads", f"{small} --threads {threads} --nodes 26",
            overlap, WHITE_IMAGE)
        row(f"a full pool on {threads} threads", f"{small} --threads {threads} --nodes 25",
            overlap, 5, "pool full: 26 fragments, 25 nodes")
    row("an invisible face has a fragment", one + " --background 1,1,1 --nodes 1", RED_SCENE,
        pixel(255, 255, 255), libraries=CLEAR)
    row("two invisible faces have two", one + " --background 1,1,1 --nodes 1",
        RED_SCENE + b"f 1 2 3\n", 5, "pool full: 2 fragments, 1 nodes", libraries=CLEAR)

    # colours
    row("half red over white", one + " --background 1,1,1", RED_SCENE, pixel(255, 127, 127),
        libraries=HALF_RED)
    row("half red over black", one, RED_SCENE, pixel(128, 0, 0), libraries=HALF_RED)
    row("two bytes a value", one + " --background 1,1,1 --maxval 65535", RED_SCENE,
        header(1, 1, 65535) + bytes.fromhex("ffff7fff7fff"), libraries=HALF_RED)
    row("at one depth the later face is on top", one, RED_THEN_GREEN, pixel(64, 128, 0),
        libraries=RED_AND_GREEN)
    row("and so with the faces exchanged", one, GREEN_THEN_RED, pixel(128, 64, 0),
        libraries=RED_AND_GREEN)
    row("four samples of which two are covered", one + " --samples 4", LEFT_HALF_SCENE,
        pixel(128, 128, 128))
    row("eight samples of which four are covered", one + " --samples 8", LEFT_HALF_SCENE,
        pixel(128, 128, 128))

    for samples in (2, 16):
        row(f"{samples} samples of which half are covered", f"{one} --samples {samples}",
            LEFT_HALF_SCENE, pixel(128, 128, 128))
    row("half blue over red, over white", one + " --background 1,1,1 --maxval 65535",
        join("mtllib a.mtl", *BIG, "v -8 8 2", "v 24 8 2", "v -8 -24 2", "usemtl red", "f 1 2 3",
             "usemtl blue", "f 4 5 6"),
        header(1, 1, 65535) + bytes.fromhex("7fff00008000"),
        libraries={"a.mtl": join("newmtl red", "Kd 1 0 0", "newmtl blue", "Kd 0 0 1", "d 0.5")})

    # depth in each sample
    row("one of two crossing planes is in front at the centre", one, CROSSING_SCENE,
        pixel(255, 0, 0), libraries=CROSSING)
    row("each of them is in front in one of two samples", one + " --samples 2", CROSSING_SCENE,
        pixel(128, 128, 0), libraries=CROSSING)
    row("pick shows both orders", "pick 0,0 --size 1x1 --samples 2", CROSSING_SCENE,
        text("fragments 2", "prim 0 mask 3", "prim 1 mask 3",
             "sample 0 prim 0 depth 466033 prim 1 depth 507903",
             "sample 1 prim 1 depth 409599 prim 0 depth 466033"), libraries=CROSSING)
    crossing = "the crossing runs through the centre, "
    row(crossing + "the later plane is on top there", one, TWO_PLANES, pixel(0, 255, 0),
        libraries=OPAQUE)
    row(crossing + "with the planes exchanged", one, TWO_PLANES_EXCHANGED, pixel(255, 0, 0),
        libraries=OPAQUE)
    for samples in (2, 4, 8):
        for order in (TWO_PLANES, TWO_PLANES_EXCHANGED):
            row(crossing + f"{samples} samples", f"{one} --samples {samples}", order,
                pixel(128, 128, 0), libraries=OPAQUE)
    # sample 9 of 16 is on the crossing
    row(crossing + "8 of 16 samples on either side", one + " --samples 16", TWO_PLANES,
        pixel(128, 128, 0), libraries=OPAQUE)
    row(crossing + "9 of 16 samples are red", one + " --samples 16", TWO_PLANES_EXCHANGED,
        pixel(143, 112, 0), libraries=OPAQUE)
    row(crossing + "two bytes a value", one + " --samples 16 --maxval 65535",
        TWO_PLANES_EXCHANGED, header(1, 1, 65535) + bytes.fromhex("8fff70000000"),
        libraries=OPAQUE)
    for samples in (2, 4, 8):
        row(f"a film that crosses an opaque face, {samples} samples", f"{one} --samples {samples}",
            TWO_PLANES, pixel(191, 64, 0), libraries=RED_IS_OPAQUE)
    row("a film that crosses an opaque face, 16 samples", one + " --samples 16 --maxval 65535",
        TWO_PLANES, header(1, 1, 65535) + bytes.fromhex("bfff40000000"), libraries=RED_IS_OPAQUE)
    row("a film beneath an opaque face in 9 of 16 samples", one + " --samples 16 --maxval 65535",
        TWO_PLANES_EXCHANGED, header(1, 1, 65535) + bytes.fromhex("c7ff38000000"),
        libraries=RED_IS_OPAQUE)
    row("a film that an opaque face crosses, 2 samples", one + " --samples 2", TWO_PLANES,
        pixel(64, 191, 0), libraries=GREEN_IS_OPAQUE)
    row("an invisible face crosses an opaque one", one + " --samples 8 --nodes 2", TWO_PLANES,
        pixel(255, 0, 0), libraries=GREEN_IS_CLEAR)
    row("crossing films, 2 samples", one + " --samples 2", TWO_PLANES, pixel(96, 96, 0),
        libraries=RED_AND_GREEN)
    row("the crossing of two faces needs no further node", one + " --samples 16 --nodes 1",
        TWO_PLANES, 5, "pool full: 2 fragments, 1 nodes", libraries=OPAQUE)
    row("three planes in another order in each sample", "pick 0,0 --size 1x1 --samples 4",
        THREE_PLANES,
        text("fragments 3", "prim 0 mask 15", "prim 1 mask 15", "prim 2 mask 15",
             "sample 0 prim 2 depth 475135 prim 1 depth 507903 prim 0 depth 524287",
             "sample 1 prim 2 depth 507903 prim 0 depth 524287 prim 1 depth 573439",
             "sample 2 prim 1 depth 475135 prim 0 depth 524287 prim 2 depth 540671",
             "sample 3 prim 0 depth 524287 prim 1 depth 540671 prim 2 depth 573439"))
    row("three planes of one depth at the centre", "pick 0,0 --size 1x1", THREE_PLANES,
        text("fragments 3", "prim 0 mask 1", "prim 1 mask 1", "prim 2 mask 1",
             "sample 0 prim 0 depth 524287 prim 1 depth 524287 prim 2 depth 524287"))
    row("equal depths in the samples of one diagonal", "pick 0,0 --size 1x1 --samples 2",
        THREE_PLANES,
        text("fragments 3", "prim 0 mask 3", "prim 1 mask 3", "prim 2 mask 3",
             "sample 0 prim 0 depth 524287 prim 1 depth 557055 prim 2 depth 557055",
             "sample 1 prim 1 depth 491519 prim 2 depth 491519 prim 0 depth 524287"))
    films = ["usemtl red", "f 4 5 6", "usemtl green", "f 6 5 4", "usemtl blue", "f 5 6 4"]
    for samples in (1, 2, 4, 8, 16):
        row(f"films in one slanting plane, {samples} samples", f"{one} --samples {samples}",
            join(*PLANES, *films), pixel(32, 64, 128), libraries=FILMS)
        row(f"and so from blue to red, {samples} samples", f"{one} --samples {samples}",
            join(*PLANES, *films[4:], *films[2:4], *films[:2]), pixel(128, 64, 32),
            libraries=FILMS)
    row("pick of films in one slanting plane", "pick 0,0 --size 1x1 --samples 2",
        join(*PLANES, *films),
        text("fragments 3", "prim 0 mask 3", "prim 1 mask 3", "prim 2 mask 3",
             "sample 0 prim 0 depth 557055 prim 1 depth 557055 prim 2 depth 557055",
             "sample 1 prim 0 depth 491519 prim 1 depth 491519 prim 2 depth 491519"),
        libraries=FILMS)

    far = join("v -32767 32767 3.92578125", "v 32767 32767 3.92578125",
               "v -32767 -32767 3.92578125", "v -32767 32767 3.875",
               "v 32767 19402.2227783203125 3.9375", "v -16000 -32767 3.9375", "f 1 2 3", "f 4 5 6")
    far_words = "pick 0,0 --size 1x1 --focal 16 --near 0.0625 --samples"
    row("crossing triangles of the greatest size, 4 samples", far_words + " 4", far,
        text("fragments 2", "prim 0 mask 5", "prim 1 mask 15",
             "sample 0 prim 1 depth 14128180 prim 0 depth 14128181",
             "sample 1 prim 1 depth 14128181",
             "sample 2 prim 1 depth 14128180 prim 0 depth 14128181",
             "sample 3 prim 1 depth 14128181"))
    only, behind, equal, nearest = (
        "prim 1 depth 14128181", "prim 1 depth 14128180 prim 0 depth 14128181",
        "prim 0 depth 14128181 prim 1 depth 14128181", "prim 1 depth 14128182"
    )
    row("crossing triangles of the greatest size, 16 samples", far_words + " 16", far,
        text("fragments 2", "prim 0 mask 40598", "prim 1 mask 65535",
             *(f"sample {k} {covering}" for k, covering in enumerate(
                 [only, behind, equal, only, behind, only, only, equal,
                  only, behind, behind, equal, behind, only, nearest, behind]))))

    # few samples
    corner = join("v 3.375 2.125 0", "v 3.875 2.125 0", "v 3.375 1.625 0", "f 1 2 3")
    row("one of 16 samples", one + " --samples 16", corner, pixel(16, 16, 16))
    row("one of 16 samples, two bytes a value", one + " --samples 16 --maxval 65535", corner,
        header(1, 1, 65535) + bytes.fromhex("100010001000"))
    row("pick of one of 16 samples", "pick 0,0 --size 1x1 --samples 16", corner,
        text("fragments 1", "prim 0 mask 8192",
             *in_samples(16, "prim 0 depth 524287", [13])))
    for samples in (1, 2, 4, 8):
        row(f"of {samples} samples it has none", f"pick 0,0 --size 1x1 --samples {samples}",
            corner, text("fragments 0", *in_samples(samples, "", [])))
    row("a face within a pixel is in front in its own samples alone",
        "pick 0,0 --size 1x1 --samples 4", join(*BIG, "v 1 1.5 2", "v 2.5 1.5 2", "v 1 -1 2",
                                                "f 4 5 6", "f 1 2 3"),
        text("fragments 2", "prim 0 mask 2", "prim 1 mask 15", "sample 0 prim 1 depth 524287",
             "sample 1 prim 1 depth 524287 prim 0 depth 1048575", "sample 2 prim 1 depth 524287",
             "sample 3 prim 1 depth 524287"))
    # samples 12 and 15 of 16 are on the left and the upper side of their pixel
    beside = join("v 0 36 0", "v 0 -36 0", "v -32 0 0", "v 32 0 0", "f 1 2 3", "f 1 2 4")
    below = join("v -36 0 0", "v 36 0 0", "v 0 32 0", "v 0 -32 0", "f 1 2 3", "f 1 2 4")
    for place, size, halves in (("1,0", "2x1", beside), ("0,1", "1x2", below)):
        title = f"faces that meet between the pixels of an image of {size}"
        words = f"--size {size} --samples 16"
        row(title, f"pick {place} {words}", halves,
            text("fragments 1", "prim 1 mask 65535",
                 *in_samples(16, "prim 1 depth 524287", range(16))))
        row(title + ", the pool", f"render {words} --nodes 1", halves,
            5, "pool full: 2 fragments, 1 nodes")

    # the near plane and the camera
    row("one corner behind the near plane", small, ONE_BEHIND_SCENE,
        picture("WWWW", "WWWW", "....", "...."))
    row("its fragments are eight", small + " --nodes 7", ONE_BEHIND_SCENE,
        5, "pool full: 8 fragments, 7 nodes")
    row("two corners behind the near plane", small, TWO_BEHIND_SCENE,
        picture("WWW.", ".W..", "....", "...."))
    row("its fragments are four", small + " --nodes 3", TWO_BEHIND_SCENE,
        5, "pool full: 4 fragments, 3 nodes")
    row("all corners behind the near plane", small,
        join("v 0 0 5", "v -1 1 5", "v 1 1 5", "f 1 2 3"), BLACK_IMAGE)
    row("a corner of the triangle is cut off", small,
        join("v -4 4 0", "v 4 4 4", "v -4 -4 0", "f 1 2 3"), UPPER_IMAGE)
    row("a shared edge that is cut covers each centre once", "render --size 3x4 --nodes 6",
        SHARED_CUT_SCENE, picture("WWW", "WWW", "...", "..."))
    row("its fragments are six", "render --size 3x4 --nodes 5", SHARED_CUT_SCENE,
        5, "pool full: 6 fragments, 5 nodes")
    row("a triangle of the greatest size", "render --size 1x4096 --focal 16 --near 0.0625",
        HUGE_SCENE, picture(*["W"] * 4096))
    row("a half turn about the vertical axis", small + " --turn 0,0,1,0", UPPER_SCENE,
        RIGHT_IMAGE)
    row("a factor of the turn changes nothing", small + " --turn 2,0,0,0", UPPER_SCENE,
        UPPER_IMAGE)
    row("the turn with all parts at their limit", small + " --turn=-1024,-1024,-1024,-1024",
        join("v 4 0 -4", "v 4 0 4", "v -4 0 -4", "f 1 2 3"), UPPER_IMAGE)
    row("as far ahead as can be", small + " --move=0,0,-32767.99999", UPPER_SCENE, BLACK_IMAGE)
    row("as far behind as can be", small + " --move=0,0,32767.99999", UPPER_SCENE, BLACK_IMAGE)

    # pick and demo
    row("pick on a covered pixel", "pick 3,0 --size 4x4", SQUARE_SCENE,
        text("fragments 1", "prim 1 mask 1", "sample 0 prim 1 depth 524287"))
    row("pick on a pixel that isn't covered", "pick 3,3 --size 4x4", UPPER_SCENE,
        text("fragments 0", "sample 0"))
    row("pick after clipping", "pick 1,1 --size 3x4", SHARED_CUT_SCENE,
        text("fragments 1", "prim 3 mask 1", "sample 0 prim 3 depth 3145727"))
    row("pick shows the mask of the samples", "pick 0,0 --size 1x1 --samples 4", LEFT_HALF_SCENE,
        text("fragments 1", "prim 0 mask 5", "sample 0 prim 0 depth 524287", "sample 1",
             "sample 2 prim 0 depth 524287", "sample 3"))
    row("pick with two samples", "pick 0,0 --size 1x1 --samples 2", LEFT_HALF_SCENE,
        text("fragments 1", "prim 0 mask 2", "sample 0", "sample 1 prim 0 depth 524287"))
    row("pick with sixteen samples, two of them on an edge", "pick 0,0 --size 1x1 --samples 16",
        LEFT_HALF_SCENE,
        text("fragments 1", "prim 0 mask 40214",
             *in_samples(16, "prim 0 depth 524287", [1, 2, 4, 8, 10, 11, 12, 15])))
    for place in ("0,0", "0,2047", "0,4095"):
        row("the greatest depth key", f"pick {place} --size 1x4096 --focal 16 --near 0.0625",
            HUGE_SCENE,
            text("fragments 1", "prim 0 mask 1", "sample 0 prim 0 depth 16777215"))
    row("and so in each of 16 samples",
        "pick 0,4095 --size 1x4096 --focal 16 --near 0.0625 --samples 16", HUGE_SCENE,
        text("fragments 1", "prim 0 mask 65535",
             *in_samples(16, "prim 0 depth 16777215", range(16))))
    row("a steep face that would be beyond the greatest depth at the pixel's centre",
        "pick 0,0 --size 1x1 --samples 4",
        join("v -32000 32000 -31996", "v -0.0078125 0.125 3.875", "v -32000 -18000 -31996",
             "f 1 2 3"),
        text("fragments 1", "prim 0 mask 1",
             *in_samples(4, "prim 0 depth 13421785", [0])))
    row("a steep face that would be below 0 there", "pick 0,0 --size 1x1 --samples 4",
        join("v -0.125 0.125 3.875", "v -2000 32000 -31996", "v -0.125 -0.0703125 3.875",
             "f 1 2 3"),
        text("fragments 1", "prim 0 mask 1", *in_samples(4, "prim 0 depth 3355495", [0])))
    row("pick with the farthest first in a sample", "pick 0,0 --size 1x1",
        join("v -8 8 0", "v 24 8 0", "v -8 -24 0", "v -8 8 2", "v 24 8 2", "v -8 -24 2",
             "f 4 5 6", "f 1 2 3", "f 1 2 3"),
        text("fragments 3", "prim 0 mask 1", "prim 1 mask 1", "prim 2 mask 1",
             "sample 0 prim 1 depth 524287 prim 2 depth 524287 prim 0 depth 1048575"))
    row("pick refuses a full pool", "pick 0,0 --size 4x4 --nodes 15", SQUARE_SCENE,
        5, "pool full: 16 fragments, 15 nodes")
    row("pick refuses a faulty line", "pick 0,0 --size 4x4", b"v 1 2\n", 3, "line 1: bad number")
    row("pick refuses a library that is missing", "pick 0,0 --size 4x4", b"mtllib a.mtl\n",
        4, "library 1 missing")
    row("pick tells an invisible fragment", "pick 0,0 --size 1x1", RED_SCENE,
        text("fragments 1", "prim 0 mask 1", "sample 0 prim 0 depth 524287"),
        libraries=CLEAR)
    row("one triangle of the demonstration", "demo 1 --size 1x1 --move 0,0.3,-4", b"",
        text("triangles 1", "fragments 1", "longest 1", "sum 32"))
    row("both bytes of a value are summed",
        "demo 1 --size 1x1 --move 0,0.3,-4 --background 1,1,1 --maxval 65535", b"",
        text("triangles 1", "fragments 1", "longest 1", "sum 1466"))
    for near, count in (("5.5", 0), ("5", 1), ("4.1", 2)):
        row(f"primitives of the demonstration in front of a near plane at {near}",
            f"demo 1 --size 4x4 --near {near}", b"",
            text(f"triangles {count}", "fragments 0", "longest 0", "sum 0"))
    row("demo refuses a full pool", "demo 16 --size 4x4 --focal 2 --nodes 3", b"",
        5, "pool full: 8 fragments, 3 nodes")
    for number in ("0", "200001", "1000000"):
        row("a number of the demonstration out of range", f"demo {number}", b"",
            2, "bad value: number")

    # faces
    for elements in ("1//1 2/5/1 -1", "1/ 2/0 3//", "1 2 3 # 4", "-3 -2 -1"):
        row(f"a face of the elements {elements}", small, join(*UPPER, "f " + elements),
            UPPER_IMAGE)
    for elements in ("0 1 2", "1 2 9", "1 2 4", "-4 -3 -1", "00000000001 2 3", "1 2 3/x",
                     "1 2 3/1/1/1", "1 2 +3", "1 2 3 \\", "1 2 -0"):
        row(f"a face of the elements {elements}", small, join(*UPPER, "f " + elements),
            3, "line 4: bad index")
    row("a faulty line comes before an index beyond the points", small,
        join(*UPPER, "f 1 2 9", "curv 0 1 1 2"), 3, "line 5: unknown keyword")
    row("a point after its face", small, join("f 1 2 3", *UPPER), UPPER_IMAGE)
    row("a keyword that isn't known is passed on", small, UPPER_SCENE + b"foo\n", UPPER_IMAGE)
    row("a keyword of other bytes isn't", small, UPPER_SCENE + b"\xef\xbb\xbfv 1 2 3\n",
        3, "line 5: unknown keyword")
    row("two elements", small, join(*UPPER, "f 1 2"), 3, "line 4: too few elements")
    row("two elements on a continued line", small, join(*UPPER, "f 1 \\", "2 3"),
        3, "line 4: too few elements")
    row("1024 elements", small, join(*UPPER, "f" + " 1" * 1024), BLACK_IMAGE)
    row("1025 elements", small, join(*UPPER, "f" + " 1" * 1025), 3, "line 4: too many elements")
    row("an element of a million slashes", small, join(*UPPER, "f 1" + "/" * 1000000 + " 2 3"),
        3, "line 4: bad index")
    row("too many triangles", small, join("v 0 0 0", *["f" + " 1" * 64] * 16913),
        3, "line 16914: too many triangles")

    # points
    row("two coordinates", small, b"v 1 2\n" + UPPER_SCENE, 3, "line 1: bad number")
    row("two coordinates before a comment", small, b"v 1 2 #3\n", 3, "line 1: bad number")
    row("three coordinates and more", small, join("v -4 4 0 x", *UPPER[1:], "f 1 2 3"),
        UPPER_IMAGE)
    row("a number of a million digits", small, b"v " + b"0" * 1000000 + b" 0 0\n",
        3, "line 1: bad number")
    for number in ("nan", "inf", "1e", "32768", "-32768", "0x1", ".", "1e0001", "+-1"):
        row(f"the number {number}", small, f"v {number} 0 0\n".encode(), 3, "line 1: bad number")
    for number in (".5", "-1.", "1e-7", "32767.99999", "+.5e1", "1e-999",
                   "0.0000012345678901234567"):
        row(f"the number {number}", small, f"v {number} 0 0\n".encode(), BLACK_IMAGE)
    row("an exponent", small, join("v -.4e1 4 0", "v 400e-2 4 0", "v -4 -4.000000 0", "f 1 2 3"),
        UPPER_IMAGE)
    close = "--focal 16 --near 0.0625 --move 0,0,-0.0625"
    for number, columns in (("-0.00000762939453125", ".WWW"), ("-0.00000762939453124", "..WW"),
                            ("0.00000762939453125", "...WW"), ("0.00000762939453124", "..WWW")):
        row(f"{number} is rounded, halves away from 0",
            f"render --size {len(columns)}x256 {close}",
            join(f"v {number} 1 0", f"v {number} -1 0", "v 1 0 0", "f 1 2 3"),
            picture(*[columns] * 256))
    row("too many points", small, b"v 0 0 0\n" * 1048577, 3, "line 1048577: too many points")
    row("a single point", small, b"v 0.5 0 0\n", BLACK_IMAGE)

    # a scene that ends early
    for length in range(len(UPPER_SCENE) + 1):
        start = UPPER_SCENE[:length]
        title = f"the first {length} bytes of a scene"
        if length in (0, 8, 9, 16, 17, 26, 27):
            row(title, small, start, BLACK_IMAGE)
        elif length >= 34:
            row(title, small, start, UPPER_IMAGE)
        elif length >= 28:
            row(title, small, start, 3, "line 4: too few elements")
        else:
            row(title, small, start, 3, f"line {1 + start.count(bytes([10]))}: bad number")

    # names and libraries
    row("a library without a name", small, UPPER_SCENE + b"mtllib\n", 3, "line 5: no name")
    row("a material without a name", small, UPPER_SCENE + b"usemtl \t\r\n", 3, "line 5: no name")
    row("17 libraries", small, join(*[f"mtllib {i}" for i in range(17)]),
        3, "line 17: too many libraries")
    row("4097 names of materials", small, join(*[f"usemtl {i}" for i in range(4097)]),
        3, "line 4097: too many materials")
    row("a library of 4097 materials", small, b"mtllib a.mtl\n",
        4, "library 1 line 4097: too many materials",
        libraries={"a.mtl": join(*[f"newmtl {i}" for i in range(4097)])})
    row("a library of 4096 materials and one of them again", small, b"mtllib a.mtl\n",
        BLACK_IMAGE, libraries={"a.mtl": join(*[f"newmtl {i % 4096}" for i in range(4097)])})
    row("a material of no library", small, join(*UPPER, "usemtl blue", "f 1 2 3"),
        3, "line 5: unknown material")
    row("a colour before any material", small, join("mtllib a.mtl", *UPPER, "f 1 2 3"),
        4, "library 1 line 1: no material", libraries={"a.mtl": b"Kd 1 1 1\n"})
    row("a library that is missing", small, b"mtllib a.mtl\n", 4, "library 1 missing")
    row("the first library is read before the second is fetched", small,
        b"mtllib a.mtl\nmtllib b.mtl\n", 4, "library 1 line 1: no material",
        libraries={"a.mtl": b"d 1\n"})
    row("a library by a name with blanks", small, b"mtllib  my colours.mtl \r\n" + UPPER_SCENE,
        UPPER_IMAGE, libraries={"my colours.mtl": b""})
    row("a '#' within a name", small,
        join("mtllib a #1.mtl", *UPPER, "usemtl red #2", "f 1 2 3"),
        picture("rrr.", "rr..", "r...", "....", r=(255, 0, 0)),
        libraries={"a #1.mtl": join("newmtl red #2", "Kd 1 0 0")})
    named = join("mtllib a.mtl", "mtllib b.mtl", *BIG, "usemtl m", "f 1 2 3")
    red = join("newmtl m", "Kd 1 0 0")
    row("the last library has the last word", one, named, pixel(0, 255, 0),
        libraries={"a.mtl": red, "b.mtl": join("newmtl m", "Kd 0 1 0")})
    row("a later material of the name is a new one", one, named, pixel(255, 255, 255),
        libraries={"a.mtl": red, "b.mtl": join("newmtl m")})
    row("one number stands for three", one, named, pixel(128, 128, 128),
        libraries={"a.mtl": red, "b.mtl": join("newmtl m", "Kd 0.5")})
    row("a colour beyond 1 is held", one, named, pixel(255, 0, 128),
        libraries={"a.mtl": red, "b.mtl": join("newmtl m", "Kd 7 -1 0.5 9")})
    for colour in ("Kd 1 1", "Kd 1 1 #1", "Kd", "Kd spectral x", "d", "d -halo 0.5", "d x"):
        row(f"the library's line {colour}", one, named, 4, "library 1 line 2: bad number",
            libraries={"a.mtl": join("newmtl m", colour), "b.mtl": b""})
    row("a number before a comment", one, named, pixel(255, 255, 255),
        libraries={"a.mtl": join("newmtl m", "Kd 1 # 2 3"), "b.mtl": b""})
    row("a folder as a library", small, b"mtllib .\n", 6, "read fault")
    row("a library's name with a zero byte", small, b"mtllib a\0b\n", 6, "read fault")
    row("a library's name that isn't UTF-8", small, b"mtllib \xff\n", 6, "read fault")

    # a cube of an exporter
    row("a cube as it is exported", small, CUBE_SCENE, CUBE_IMAGE, libraries=CUBE_MTL)
    row("its fragments are eight", small + " --nodes 7", CUBE_SCENE,
        5, "pool full: 8 fragments, 7 nodes", libraries=CUBE_MTL)
    row("the cube with other line ends", small, b"\r\n".join(CUBE_SCENE.splitlines()), CUBE_IMAGE,
        libraries={"cube.mtl": b"\r\n".join(CUBE_MTL["cube.mtl"].splitlines())})

    # words
    row("no words", [], UPPER_SCENE, *words_refused)
    for words in ("draw --size 4x4", "--size 4x4", "render --size", "render --size 4x4 --size 4x4",
                  "render --size 4x4 --move -1,0,-4", "render --size 4x4 x", "render --siz 4x4",
                  "render -h", "render --help", "render -V", "render --version", "pick --size 4x4",
                  "pick 0,0 1,1", "pick -1,0", "demo", "demo 1 2", "render --size --",
                  "render --colour 1"):
        row(f"the words {words}", words, UPPER_SCENE, *words_refused)
    row("a word that isn't UTF-8", [b"render", b"--size", b"4x4", b"--near", b"\xff"],
        UPPER_SCENE, *words_refused)
    row("a value after an equals sign", "render --size=4x4 --move=0,0,-4", UPPER_SCENE,
        UPPER_IMAGE)
    row("a value as a word of its own", "render --move 0,0,-4 --size 4x4", UPPER_SCENE,
        UPPER_IMAGE)
    row("nothing after two hyphens", "render --size 4x4 --", UPPER_SCENE, UPPER_IMAGE)
    row("a place after two hyphens", "pick --size 4x4 -- 3,3", UPPER_SCENE,
        text("fragments 0", "sample 0"))
    row("a place between the options", "pick --samples 4 3,3 --size 4x4", UPPER_SCENE,
        text("fragments 0", "sample 0", "sample 1", "sample 2", "sample 3"))
    row("a number after the options", "demo --size 1x1 --move 0,0.3,-4 000001", b"",
        text("triangles 1", "fragments 1", "longest 1", "sum 32"))
    row("an option is named before a place", "pick 9,9 --size 4x4 --maxval 256", UPPER_SCENE,
        2, "bad value: maxval")
    row("an option is named before a number", "demo 0 --samples 3", b"", 2, "bad value: samples")
    row("a place comes before the scene", "pick 4,0 --size 4x4", b"v 1 2\n", 2, "bad value: at")
    for number in ("", "-", "1e3", "+1", "0000001", "help"):
        row(f"the number {number!r} of the demonstration", ["demo", number], b"",
            2, "bad value: number")
    row("a large image is read", "render --size 4096x1024 --near 0", UPPER_SCENE,
        2, "bad value: near")
    for option, values in {
        "size": ("4096x4096", "0x4", "4097x1", "00001x1", "4", "4x4x4", "", "4X4", "4,4"),
        "samples": ("3", "02", "32", "", "0", "01", "016", "5", "12", "17", "64", "-", "-2", "+2",
                    "2.0", "2x", " 2", "1,2", "162"),
        "threads": ("0", "65", "001", "+1"),
        "nodes": ("0", "8388609", "00000001", "-"),
        "turn": ("0,0,0,0", "1,0,0", "1025,0,0,0", "+1,0,0,0", "00001,0,0,0"),
        "move": ("0,0", "0,0,32768", "0,0,x", "0,,0"),
        "focal": ("0", "16.1", "0.000001", "-1"),
        "near": ("0.0624", "0", "x"),
        "background": ("1,1", "1,1,nan"),
        "maxval": ("256", "0255"),
        "bands": ("0", "5", "00001", "", "x", "-", "+1", "1.0"),
    }.items():
        for value in values:
            others = [] if option == "size" else ["--size", "4x4"]
            row(f"the value {value!r} of --{option}", ["render", *others, f"--{option}={value}"],
                UPPER_SCENE, 2, f"bad value: {option}")
    row("the first value that fails is named", "render --near 0 --size 0x4", UPPER_SCENE,
        2, "bad value: size")
    row("words come before the scene", "render --size 0x4", b"v 1 2\n", 2, "bad value: size")
    row("forms of numbers that pass",
        "render --size 04x004 --turn=-0,0001,0,0 --threads 01 --nodes 0000016 --focal 1e0",
        UPPER_SCENE, FLIPPED_IMAGE)
    for place in ("4,0", "0,4", "0", "0,0,0", "00000,0", "-", "help"):
        row(f"the place {place}", ["pick", "--size", "4x4", place], UPPER_SCENE,
            2, "bad value: at")
    row("a place that begins with a hyphen", "pick --size 4x4 -- -1,0", UPPER_SCENE,
        2, "bad value: at")

    # bands and layers
    white = picture("WWWW", "WWWW", "WWWW", "WWWW")
    row("four bands with a node for each pixel", "render --size 4x4 --bands 4 --nodes 4",
        SQUARE_SCENE, white)
    row("the first of four bands is full", "render --size 4x4 --bands 4 --nodes 3", SQUARE_SCENE,
        5, "band 1 full: 4 fragments, 3 nodes")
    row("the last of four bands is full", "render --size 4x4 --bands 4 --nodes 3", LOWER_SCENE,
        5, "band 4 full: 4 fragments, 3 nodes")
    row("rows that can't be shared evenly", "render --size 4x4 --bands 3 --nodes 7", SQUARE_SCENE,
        5, "band 3 full: 8 fragments, 7 nodes")
    row("one band", "render --size 4x4 --bands 1 --nodes 15", SQUARE_SCENE,
        5, "band 1 full: 16 fragments, 15 nodes")
    row("as many bands as rows", "render --size 4x4 --bands=0004", SQUARE_SCENE, white)
    row("bands come after maxval", "render --size 4x4 --bands 0 --maxval 1", SQUARE_SCENE,
        2, "bad value: maxval")
    row("bands come before the scene", "render --size 4x4 --bands 9", b"v 1 2\n",
        2, "bad value: bands")
    row("a full band comes after the scene", "render --size 4x4 --bands 4 --nodes 3",
        SQUARE_SCENE + b"v 1 2\n", 3, "line 7: bad number")
    row("layers need no node", "render --size 4x4 --peel --nodes 1", SQUARE_SCENE, white)
    row("layers at one depth", one + " --peel", RED_THEN_GREEN, pixel(64, 128, 0),
        libraries=RED_AND_GREEN)
    row("layers that cross in a pixel", one + " --samples 2 --peel", CROSSING_SCENE,
        pixel(128, 128, 0), libraries=CROSSING)
    row("bands where planes cross in a pixel", one + " --samples 2 --bands 1", CROSSING_SCENE,
        pixel(128, 128, 0), libraries=CROSSING)
    for words in ("--peel --bands 2", "--bands 2 --peel", "--peel --bands=x"):
        row(f"both: {words}", "render --size 4x4 " + words, SQUARE_SCENE, 2, "bad value: bands")
    for words in ("render --peel=1", "render --peel --peel", "render --peel 1",
                  "render --bands", "render --bands --peel", "render --bands 1 --bands 1",
                  "pick 0,0 --bands 1", "pick 0,0 --peel", "demo 1 --bands 1", "demo 1 --peel"):
        row(words, words + " --size 4x4", SQUARE_SCENE, 2, "words not understood")

    made.extend(row for one in sequences() for row in one)

    # the outside
    row("a scene that can't be read", small, b"", 6, "read fault", stdin="fault")
    row("words come before reading", "render --size 0x4", b"", 2, "bad value: size",
        stdin="fault")
    row("demo reads no scene", "demo 1 --size 1x1 --move 0,0.3,-4", b"",
        text("triangles 1", "fragments 1", "longest 1", "sum 32"), stdin="fault")
    row("an output that takes nothing", small, UPPER_SCENE, 7, "write fault", stdout="full")
    row("a scene of the greatest length", small, b"\n" * 67108864, BLACK_IMAGE, is_slow=True)
    row("a scene that is one byte longer", small, b"\n" * 67108865, 3, "scene too long",
        is_slow=True)
    row("a library that is too long", small, b"mtllib a.mtl\n", 4, "library 1 too long",
        libraries={"a.mtl": b"\n" * 67108865}, is_slow=True)
    return made


# ---- sequences of images

AHEAD, BEHIND = "1 0 0 0 0 0 -4", "0 0 1 0 0 0 -4"
AHEAD_IMAGE, BEHIND_IMAGE = UPPER_IMAGE, RIGHT_IMAGE
BOTH_IMAGES = AHEAD_IMAGE + BEHIND_IMAGE


def sequence(title, path, *answer, scene=UPPER_SCENE, words="", out=b"", command=None, **named):
    """The row of a sequence along a path, of lines or of bytes. The answer is the output, or the
    status and the message, with what is written before."""
    libraries = named.pop("libraries", {})
    if path is not None:
        libraries = {**libraries, "p": path if isinstance(path, bytes) else join(*path)}
    command = command or f"sequence p --size 4x4 {words}".strip()
    command = command.split(" ") if isinstance(command, str) else command
    if len(answer) == 1:
        return Row(title, command, scene, 0, answer[0], b"", libraries, **named)
    return Row(title, command, scene, answer[0], out, text(answer[1]), libraries, **named)


def sequences():
    yield sequences_drawn()
    yield sequences_refused()
    yield paths_by_lines()
    yield words_of_sequences()


def sequences_drawn():
    two = [AHEAD, BEHIND]
    yield sequence("a sequence of two images", two, BOTH_IMAGES)
    yield sequence("the images in the order of the path", two[::-1], BEHIND_IMAGE + AHEAD_IMAGE)
    yield sequence("an image as often as its line", [AHEAD] * 3, AHEAD_IMAGE * 3)
    yield sequence("a pool that the larger image fits just", two, BOTH_IMAGES, words="--nodes 10")
    yield sequence("the second image fills the pool", two, 5,
                   "image 2: pool full: 10 fragments, 6 nodes", words="--nodes 6", out=AHEAD_IMAGE)
    yield sequence("the first full image ends the sequence", [AHEAD, BEHIND, AHEAD, BEHIND], 5,
                   "image 2: pool full: 10 fragments, 9 nodes", words="--nodes 9", out=AHEAD_IMAGE)
    yield sequence("the first image fills the pool", two, 5,
                   "image 1: pool full: 6 fragments, 5 nodes", words="--nodes 5")
    yield sequence("an empty path", b"", b"")
    yield sequence("a path of blank lines and comments", ["", "# nothing", " \t\r", "#"], b"")
    for threads in (1, 7, 64):
        yield sequence(f"a sequence on {threads} threads", two, BOTH_IMAGES,
                       words=f"--threads {threads}")
    yield sequence("two bytes a value in each image", ["1 0 0 0 0 0 -4"] * 2,
                   2 * (header(1, 1, 65535) + bytes.fromhex("ffff7fff7fff")), scene=RED_SCENE,
                   libraries=HALF_RED,
                   command="sequence p --size 1x1 --background 1,1,1 --maxval 65535")
    yield sequence("samples of each image", [AHEAD, "1 0 0 0 2 0 -4"],
                   pixel(128, 128, 128) + pixel(191, 191, 191), scene=LEFT_HALF_SCENE,
                   command="sequence p --size 1x1 --samples 4")
    yield sequence("images of an empty scene", two, BLACK_IMAGE * 2, scene=b"")
    yield sequence("4096 images", [AHEAD] * 4096, pixel(0, 0, 0) * 4096, scene=b"",
                   command="sequence p --size 1x1 --nodes 1", is_slow=True)


def sequences_refused():
    yield sequence("a path that is missing", None, 9, "path missing")
    yield sequence("a path that is missing comes before the scene", None, 9, "path missing",
                   stdin="fault")
    yield sequence("a faulty path comes before the scene", ["1"], 9, "path line 1: wrong count",
                   scene=b"v 1 2\n")
    yield sequence("a faulty path leaves the scene unread", ["1"], 9, "path line 1: wrong count",
                   stdin="fault")
    yield sequence("a faulty scene after the path", [AHEAD], 3, "line 1: bad number",
                   scene=b"v 1 2\n")
    yield sequence("a faulty scene though no image is asked for", b"", 3, "line 1: bad number",
                   scene=b"v 1 2\n")
    yield sequence("a scene that can't be read, though no image is asked for", b"", 6, "read fault",
                   stdin="fault")
    yield sequence("a library that is missing, though no image is asked for", b"", 4,
                   "library 1 missing", scene=b"mtllib a.mtl\n")
    yield sequence("a path that is a folder", None, 6, "read fault",
                   command="sequence . --size 4x4")
    yield sequence("a path through a file", ["1"], 6, "read fault",
                   command="sequence p/q --size 4x4")
    yield sequence("a full device at image 1 comes before a full pool at image 2",
                   [AHEAD, BEHIND], 7, "write fault", words="--nodes 6", stdout="full")
    yield sequence("a full pool at image 1 on a full device", [AHEAD, BEHIND], 5,
                   "image 1: pool full: 6 fragments, 5 nodes", words="--nodes 5", stdout="full")
    yield sequence("no images on a full device", b"", b"", stdout="full")
    yield sequence("4097 images", [AHEAD] * 4097, 9, "path line 4097: too many images")
    yield sequence("4097 images between blank lines", ["", "# x", *[AHEAD] * 4097], 9,
                   "path line 4099: too many images")
    yield sequence("a bad turn after 4096 images", [AHEAD] * 4096 + ["0 0 0 0 0 0 -4"], 9,
                   "path line 4097: bad turn")
    yield sequence("a path of the greatest length", b"#" + b"x" * 1048574 + b"\n", b"")
    yield sequence("a path that is one byte longer", b"#" + b"x" * 1048575 + b"\n", 9,
                   "path too long")
    yield sequence("its length comes before its lines", b"1\n" * 524289, 9, "path too long")


def paths_by_lines():
    for line in ("1 0 0 0 0 0", "1 0 0 0 0 0 -4 0", "1", "1 0 0 0 0 0 # -4", "1 0 0 0 0 0 #-4",
                 "render", "1,0,0,0 0,0,-4", "\\"):
        yield sequence(f"the line {line}", [line], 9, "path line 1: wrong count")
    for turn in ("0 0 0 0", "-0 0 0 -0", "1025 0 0 0", "-1025 0 0 0", "+1 0 0 0", "00001 0 0 0",
                 "1.0 0 0 0", "1e0 0 0 0", "- 0 0 0", "x 0 0 0", "1 0 0 --1", "1 0 0 0x1"):
        yield sequence(f"the turn {turn}", [turn + " 0 0 -4"], 9, "path line 1: bad turn")
    for shift in ("0 0 x", "0 0 32768", "0 0 -32768", "nan 0 -4", "0 . -4", "0 0 1e0001",
                  "0,0 0 -4", "0 0 0" + "0" * 30):
        yield sequence(f"the shift {shift}", [f"1 0 0 0 {shift}"], 9, "path line 1: bad number")
    yield sequence("a count before a turn", ["0 0 0 0 0 0"], 9, "path line 1: wrong count")
    yield sequence("a turn before a number", ["0 0 0 0 0 0 x"], 9, "path line 1: bad turn")
    yield sequence("the first faulty line", [AHEAD, "", "1 0 0 0 x 0 -4", "1"], 9,
                   "path line 3: bad number")
    yield sequence("a byte order mark", b"\xef\xbb\xbf1 0 0 0 0 0 -4\n", 9, "path line 1: bad turn")
    yield sequence("a zero byte", b"1 0 0 0 0 0 -4\0\n", 9, "path line 1: bad number")
    for title, line in (
            ("forms of the turn", "-0 -0000 0001 0 0 0 -4"), ("a comment behind", BEHIND + " # x"),
            ("a comment at once", "0 0 1 0 0 0 -4 #"),
            ("tabs, CRs and blanks", "\t0\r0  1\t0 0 0 -4 \r"),
            ("forms of the shift", "0 0 1 0 +0. -.0e9 -0.4e+1"),
            ("another quaternion", "0 0 -1024 0 0 0 -4"),
            ("a number that is rounded", "0 0 1 0 1e-7 -0.0000076 -4")):
        yield sequence(f"a path's line with {title}", [line], BEHIND_IMAGE)
    yield sequence("a path's last line without its end", BEHIND.encode(), BEHIND_IMAGE)
    yield sequence("a path's lines ended by CR and LF",
                   join(AHEAD, BEHIND).replace(b"\n", b"\r\n"), BOTH_IMAGES)


def words_of_sequences():
    path = [AHEAD]
    refused = 2, "words not understood"
    for words in ("sequence", "sequence --size 4x4", "sequence p q", "sequence p --turn 1,0,0,0",
                  "sequence p --move 0,0,-4", "sequence p --bands 1", "sequence p --peel",
                  "sequence -p", "sequence p --path p", "sequence p --size 4x4 --size 4x4",
                  "render --path p", "Sequence p"):
        yield sequence(f"the words {words}", path, *refused, command=words)
    yield sequence("an empty name", path, 2, "bad value: path",
                   command=["sequence", "", "--size", "4x4"])
    yield sequence("an option is named before the path", path, 2, "bad value: maxval",
                   command=["sequence", "", "--maxval", "256"])
    yield sequence("a path after two hyphens", path, AHEAD_IMAGE,
                   command="sequence --size 4x4 -- p")
    yield sequence("a path between the options", path, AHEAD_IMAGE,
                   command="sequence --threads 3 p --size 4x4")
    yield sequence("a path that is called as a command", None, AHEAD_IMAGE,
                   command="sequence demo --size 4x4", libraries={"demo": join(AHEAD)})
    yield sequence("a path's name with a blank", None, AHEAD_IMAGE,
                   command=["sequence", "my path", "--size", "4x4"],
                   libraries={"my path": join(AHEAD)})
    yield sequence("words come before the path", None, 2, "bad value: size",
                   command="sequence p --size 0x4")
    yield sequence("a path that begins with a hyphen", None, 9, "path missing",
                   command="sequence --size 4x4 -- -p")
    yield sequence("a hyphen as a path", None, 9, "path missing", command="sequence - --size 4x4")


def agreements():
    """Commands on several numbers of threads, and their one answer."""
    return [
        Agreement("a demonstration on several numbers of threads",
                  ["demo", "1000", "--size", "64x48"], [["--threads", "1"], ["--threads", "64"]],
                  text("triangles 1000", "fragments 19690", "longest 238", "sum 160776")),
        Agreement("two samples a pixel",
                  ["demo", "200", "--size", "24x16", "--samples", "2"],
                  [["--threads", "1"], ["--threads", "7"], ["--threads", "64"]],
                  text("triangles 200", "fragments 576", "longest 56", "sum 12931")),
        Agreement("sixteen samples a pixel",
                  ["demo", "200", "--size", "24x16", "--samples", "16"],
                  [["--threads", "1"], ["--threads", "7"], ["--threads", "64"]],
                  text("triangles 200", "fragments 1151", "longest 93", "sum 12220")),
        Agreement("sixteen samples a pixel and two bytes a value",
                  ["demo", "1000", "--size", "64x48", "--samples", "16", "--maxval", "65535"],
                  [["--threads", "1"], ["--threads", "7"]],
                  text("triangles 1000", "fragments 32343", "longest 351", "sum 284278"),
                  is_slow=True),
        Agreement("a larger one", ["demo", "20000", "--size", "64x48"],
                  [["--threads", "1"], ["--threads", "7"]],
                  text("triangles 20000", "fragments 393171", "longest 4928", "sum 210871"),
                  is_slow=True),
        Agreement("the largest one", ["demo", "200000", "--size", "64x48", "--nodes", "8388608"],
                  [["--threads", "1"], ["--threads", "64"]],
                  text("triangles 200000", "fragments 3929398", "longest 49394", "sum 240668"),
                  is_slow=True),
    ]
