"""Sequences: an image for each line of a path, joined; faulty paths; a pool that one image fills."""

from scenes.drawing import PAINTS, Case, lines

SIZE = "16x12"
WORDS = f"--size {SIZE} --nodes 1024"
# Each side shows the panes and the post in another order.
LAMP = lines(
    "# A white post between a red pane in front of it and a blue one behind.",
    "mtllib paints.mtl",
    "v -0.5 3.5 0", "v 0.5 3.5 0", "v 0.5 -3.5 0", "v -0.5 -3.5 0", "usemtl white", "f 1 2 3 4",
    "v -1 1.5 1", "v 2.5 1.5 1", "v 2.5 -2 1", "v -1 -2 1", "usemtl red_film", "f 5 6 7 8",
    "v -2.5 3 -1", "v 1.5 3 -1", "v 1.5 -1 -1", "v -2.5 -1 -1", "usemtl blue_film",
    "f 9 10 11 12",
)
FRONT, RIGHT, BACK, LEFT = ("1 0 0 0 0 0 -4", "1 0 -1 0 0 0 -4", "0 0 1 0 0 0 -4", "1 0 1 0 0 0 -4")
NEAR = "1 0 0 0 0 0 -2"
FILES = {"lamp.obj": LAMP, "paints.mtl": PAINTS}
CLEAR_SCENE = lines("mtllib clear.mtl", "v -4 4 0", "v 4 4 0", "v 4 -4 0", "v -4 -4 0",
                    "usemtl clear", "f 1 2 3 4")


def sequence(name, shows, *path, words=WORDS, scene="lamp.obj", status=0, error=None, files=None):
    """A path of these lines, and the sequence along it."""
    content = path[0] if len(path) == 1 and isinstance(path[0], bytes) else lines(*path)
    there = {**FILES, f"{name}.path": content, **(files or {})}
    command = f"abuf sequence {name}.path {words} < {scene}"
    return Case(name, shows, command, there, status, error)


def drawn():
    yield sequence("two", "Two images: from the front and from behind.", FRONT, BACK)
    yield sequence("round", "Four images, once round the scene.", FRONT, RIGHT, BACK, LEFT)
    yield sequence("order", "The images have the order of the path.", LEFT, BACK, RIGHT, FRONT)
    yield sequence("again", "A line that stands twice gives its image twice.", FRONT, FRONT, NEAR,
                   NEAR)
    yield sequence("one", "A single image.", FRONT)
    yield sequence("samples", "Each image with 8 samples.", FRONT, RIGHT, NEAR,
                   words=f"{WORDS} --samples 8")
    yield sequence("two-bytes", "Each image with two bytes a value, over a background.", FRONT,
                   BACK, words=f"{WORDS} --samples 16 --maxval 65535 --background 0.2,0.3,0.4")
    yield sequence("lens", "A focal length and a near plane for all images.", FRONT, NEAR, RIGHT,
                   words=f"{WORDS} --focal 1.5 --near 1.5")
    yield sequence("clear", "Invisible faces take nodes in each image.", FRONT, FRONT,
                   words="--size 4x4 --nodes 16", scene="clear.obj",
                   files={"clear.obj": CLEAR_SCENE, "clear.mtl": "newmtl clear\nd 0\n"})


def read():
    yield sequence("comments", "Comments and blank lines are passed over.", "# the front", FRONT,
                   "", " \t", f"  {BACK}   # from behind", "#1 0 0 0 0 0 0")
    yield sequence("tokens", "Tokens are divided by spaces, tabs and CRs.",
                   b"\t1\t0 0\r0  0 0 -4\r\n0 0 1 0\t\t0 0 -4 \r\n")
    yield sequence("last-line", "The last line needs no end.", f"{FRONT}\n{BACK}".encode())
    yield sequence("turns", "The forms and the ends of the parts of a turn.",
                   "-0 0001 -0000 0 0 0 -4", "1024 -1024 1024 -1024 0 0 -4", "-1 0 0 0 0 0 -4")
    yield sequence("numbers", "The forms of the numbers of a shift.", "1 0 0 0 .5 -1. -40e-1",
                   "1 0 0 0 +0.25 1E-3 -4.000000000000000000000000001",
                   "1 0 0 0 32767.99999 -32767.99999 0")
    yield Case("named", "The path after the end of the options.",
               f"abuf sequence {WORDS} -- one.path < lamp.obj", FILES)
    yield sequence("none", "A path without images writes nothing.", "# nothing", "")


def full():
    yield sequence("fits", "268 nodes are just enough for the larger image.", FRONT, NEAR,
                   words=f"--size {SIZE} --nodes 268")
    yield sequence("full", "One node less isn't enough for the second image; the first is written.",
                   FRONT, NEAR, FRONT, words=f"--size {SIZE} --nodes 267", status=5,
                   error="image 2: pool full: 268 fragments, 267 nodes")
    yield sequence("full-first", "The first image doesn't fit, and nothing is written.", NEAR, FRONT,
                   words=f"--size {SIZE} --nodes 267", status=5,
                   error="image 1: pool full: 268 fragments, 267 nodes")
    yield sequence("full-twice", "The first of two images that don't fit is told.", FRONT, FRONT,
                   NEAR, "1 0 0 0 0 0 -1.9", words=f"--size {SIZE} --nodes 267", status=5,
                   error="image 3: pool full: 268 fragments, 267 nodes")


def faulty():
    for name, shows, cause, line in (
            ("six", "Six tokens.", "wrong count", "1 0 0 0 0 0"),
            ("eight", "Eight tokens.", "wrong count", "1 0 0 0 0 0 -4 0"),
            ("commented", "A seventh token in a comment.", "wrong count", "1 0 0 0 0 0 #-4"),
            ("zeros", "A turn of zeros.", "bad turn", "0 -0 0 0 0 0 -4"),
            ("large-part", "A part of 1025.", "bad turn", "1 0 0 1025 0 0 -4"),
            ("plus-part", "A part with a plus.", "bad turn", "1 +1 0 0 0 0 -4"),
            ("long-part", "A part of five digits.", "bad turn", "00001 0 0 0 0 0 -4"),
            ("broken-part", "A part that isn't whole.", "bad turn", "1 0 0.5 0 0 0 -4"),
            ("word", "A shift that is no number.", "bad number", "1 0 0 0 0 0 x"),
            ("large-shift", "A shift of 32768.", "bad number", "1 0 0 0 0 32768 -4"),
            ("commas", "Commas don't divide tokens.", "wrong count", "1,0,0,0 0,0,-4"),
            ("count-first", "The count is told before the turn.", "wrong count", "0 0 0 0 0 x"),
            ("turn-second", "The turn is told before the shift.", "bad turn", "0 0 0 0 0 0 x")):
        yield sequence(name, shows, "# the line below is refused", line, FRONT, status=9,
                       error=f"path line 2: {cause}")
    yield sequence("first-fault", "The first faulty line is told.", FRONT, "1 0 0 0 0 0 x", "1",
                   status=9, error="path line 2: bad number")
    yield recipe("too-many", "4,097 images.", 9, "path line 4098: too many images",
                 "1 # one too many", f"4097 {FRONT}")
    yield recipe("too-long", "A path of 1,048,577 bytes.", 9, "path too long", "524288 #",
                 "1 ")
    yield Case("missing", "A path that isn't there.", f"abuf sequence no.path {WORDS} < lamp.obj",
               FILES, 9, "path missing")
    yield Case("folder", "A path that is a folder.", f"abuf sequence . {WORDS} < lamp.obj",
               FILES, 6, "read fault")


def recipe(name, shows, status, error, *path):
    """A path that is too long to be kept: counts, each with a line."""
    there = {**FILES, f"{name}.path.lines": lines(*path)}
    return Case(name, shows, f"abuf sequence {name}.path {WORDS} < lamp.obj", there, status, error)


def ordered():
    bad = {"bad.obj": lines("v 1 2")}
    yield sequence("path-first", "A faulty path is told before a faulty scene.", "1", scene="bad.obj",
                   status=9, error="path line 1: wrong count", files=bad)
    yield sequence("scene-second", "A faulty scene is told though the path has no images.",
                   "# nothing", scene="bad.obj", status=3, error="line 1: bad number", files=bad)
    yield sequence("scene-before-pool", "A faulty scene is told before a full pool.", FRONT,
                   words=f"--size {SIZE} --nodes 1", scene="bad.obj", status=3,
                   error="line 1: bad number", files=bad)
    yield sequence("full-device", "An output that can't be written is told before a full pool of a "
                   "later image.", FRONT, NEAR, words=f"--size {SIZE} --nodes 267",
                   scene="lamp.obj > /dev/full", status=7, error="write fault")
    yield sequence("full-before-device", "A full pool is told before its image is written.", NEAR,
                   words=f"--size {SIZE} --nodes 267", scene="lamp.obj > /dev/full", status=5,
                   error="image 1: pool full: 268 fragments, 267 nodes")
    for name, shows, words, error in (
            ("no-name", "No path.", "sequence --size 8x8", "words not understood"),
            ("two-names", "Two paths.", "sequence a b", "words not understood"),
            ("turn", "A sequence has no turn.", "sequence a --turn 1,0,0,0", "words not understood"),
            ("move", "A sequence has no shift.", "sequence a --move 0,0,-4", "words not understood"),
            ("bands", "A sequence has no bands.", "sequence a --bands 2", "words not understood"),
            ("peel", "A sequence isn't peeled.", "sequence a --peel", "words not understood"),
            ("empty-name", "An empty name.", "sequence ''", "bad value: path"),
            ("empty-name-last", "The options are told before the name.", "sequence '' --maxval 1",
             "bad value: maxval")):
        yield Case(f"words-{name}", shows, f"abuf {words}", {}, 2, error)


def cases():
    for some in (drawn, read, full, faulty, ordered):
        yield from some()
