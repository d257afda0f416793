"""What is refused, each with its status and its exact text."""

from scenes.drawing import PAINTS, Case, lines

WORDS = "render --size 8x8 --move=-4,4,-4 --nodes 1024"
POINTS = ["v 1 -1 0", "v 7 -1 0", "v 7 -7 0"]
FACE = "f 1 2 3"


def scene(name, shows, error, *text, status=3, files=None, words=WORDS):
    """A scene that is refused; its lines count from 1."""
    name_of_file = f"{name}.obj"
    content = text[0] if len(text) == 1 and isinstance(text[0], bytes) else lines(*text)
    there = {name_of_file: content, **(files or {})}
    return Case(name, shows, f"abuf {words} < {name_of_file}", there, status, error)


def recipe(name, shows, error, *text):
    """A refused scene that is too long to be kept, as counts, each with a line."""
    return Case(name, shows, f"abuf {WORDS} < {name}.obj", {f"{name}.obj.lines": lines(*text)}, 3,
                error)


def keywords():
    for keyword in ("cstype deg bmat step curv curv2 surf parm trim hole scrv sp end con call"
                    .split()):
        yield scene(f"keyword-{keyword}", f"`{keyword}` isn't read.", "line 4: unknown keyword",
                    *POINTS, f"{keyword} 1 2", FACE)
    yield scene("keyword-bytes", "A keyword of other bytes than printable ASCII isn't read.",
                "line 1: unknown keyword", "g\u00e9 1", *POINTS, FACE)
    yield scene("keyword-control", "Neither is one with a control byte.", "line 3: unknown keyword",
                *POINTS[:2], "g\x01", POINTS[2], FACE)
    yield scene("byte-order-mark", "A byte order mark makes the first keyword unknown.",
                "line 1: unknown keyword", "\ufeff# a comment", *POINTS, FACE)


def numbers():
    for name, shows, text in (
            ("two", "A point of two numbers.", "1 2"),
            ("comment", "A point whose third number is in a comment.", "1 2 #3"),
            ("point", "A point without digits is no number.", "1 . 3"),
            ("exponent", "An exponent needs a digit.", "1 2e 3"),
            ("hexadecimal", "Hexadecimal digits are no number.", "0x1 2 3"),
            ("words", "`nan` is no number.", "1 2 nan"),
            ("infinite", "`inf` is no number.", "inf 2 3"),
            ("signs", "Two signs are no number.", "1 +-2 3"),
            ("comma", "A comma is no point.", "1,5 2 3"),
            ("digits", "A number of thirty-one digits.", "1 0000000000000000000000000000002 3"),
            ("exponent-digits", "An exponent of four digits.", "1 2e0000 3"),
            ("large", "A length of 32768.", "1 2 32768"),
            ("largest", "A length that is rounded to 32768.", "1 2 32767.999993"),
            ("low", "A length of -32768.", "-32768 2 3")):
        yield scene(f"number-{name}", shows, "line 2: bad number", "# the point below is refused",
                    f"v {text}", *POINTS, FACE)


def faces():
    yield scene("two-elements", "A face of two elements.", "line 4: too few elements", *POINTS,
                "f 1 2 # 3")
    yield scene("no-elements", "A face without elements.", "line 4: too few elements", *POINTS, "f")
    yield scene("elements-1025", "A face of 1,025 elements.", "line 4: too many elements", *POINTS,
                "f" + " 1 2 3 1 2" * 205)
    for name, shows, text in (
            ("zero", "The index 0.", "1 2 0"),
            ("plus", "An index with a plus.", "1 2 +3"),
            ("word", "A texture index that is no number.", "1 2 3/x"),
            ("fourth", "A fourth part.", "1 2 3/1/1/1"),
            ("digits", "An index of eleven digits.", "1 2 00000000003"),
            ("texture-digits", "A texture index of eleven digits.", "1 2 3/00000000001"),
            ("slash", "An element without a point index.", "1 2 //3"),
            ("fraction", "An index that isn't whole.", "1 2 3.0"),
            ("backslash", "A backslash doesn't continue a line.", "1 2 \\"),
            ("before", "A negative index that reaches before the first point.", "1 2 -4")):
        yield scene(f"index-{name}", shows, "line 4: bad index", *POINTS, f"f {text}", "v 0 0 0")
    yield scene("index-beyond", "An index above the number of points, at the first such face.",
                "line 5: bad index", *POINTS, FACE, "f 1 2 5", "f 1 2 6", "v 0 0 0")
    yield scene("index-beyond-later",
                "It is told only where no line of the file has another fault.",
                "line 6: too few elements", *POINTS, "f 1 2 5", FACE, "f 1 2")


def names():
    yield scene("no-material-name", "`usemtl` without a name.", "line 1: no name", "usemtl \t",
                *POINTS)
    yield scene("no-library-name", "`mtllib` without a name.", "line 2: no name", *POINTS[:1],
                "mtllib")
    yield scene("unknown-material", "A face whose material is in no library, at its line.",
                "line 6: unknown material", "mtllib paints.mtl", *POINTS, "usemtl Red", FACE,
                "usemtl other", FACE, files={"paints.mtl": PAINTS})
    yield scene("libraries-17", "A seventeenth library.", "line 18: too many libraries",
                *(f"mtllib library {i}" for i in range(1, 17)), "mtllib library 1",
                "mtllib library 17")


def long_files():
    yield recipe("points-too-many", "1,048,577 points.", "line 1048577: too many points",
                 "1048577 v 0 0 0")
    yield recipe("triangles-too-many", "1,048,577 triangles.", "line 1048578: too many triangles",
                 "3 v 0 0 0", "1048574 f 1 2 3", "1 f 1 2 3 1 2")
    yield recipe("materials-4097", "4,097 names of materials.", "line 4098: too many materials",
                 "4096 usemtl {}", "1 usemtl 4096", "1 usemtl one more")
    yield recipe("scene-too-long", "A scene of 67,108,865 bytes.", "scene too long", "67108865 ")


def library(name, shows, error, *text, recipe=False, status=4):
    """A library of this name that is refused, where a scene needs it."""
    files = {f"{name}.obj": lines(f"mtllib {name}.mtl", *POINTS, "usemtl red", FACE),
             f"{name}.mtl" + (".lines" if recipe else ""): lines(*text)}
    return Case(name, shows, f"abuf {WORDS} < {name}.obj", files, status, error)


def libraries():
    yield scene("library-missing", "A library that isn't there, counted from 1.",
                "library 2 missing",
                "mtllib paints.mtl", "mtllib nowhere.mtl", *POINTS, FACE, status=4,
                files={"paints.mtl": PAINTS})
    yield library("library-no-name", "`newmtl` without a name.", "library 1 line 2: no name",
                  "# names", "newmtl ", "Kd 1")
    yield library("library-no-material", "`Kd` above the first `newmtl`.",
                  "library 1 line 1: no material", "Kd x", "newmtl red")
    yield library("library-no-material-d", "`d` above the first `newmtl`.",
                  "library 1 line 1: no material", "d", "newmtl red")
    for name, shows, text in (
            ("kd-two", "`Kd` with two numbers.", "Kd 1 0"),
            ("kd-none", "`Kd` without numbers.", "Kd"),
            ("kd-spectral", "`Kd spectral`.", "Kd spectral file.rfl"),
            ("kd-xyz", "`Kd xyz`.", "Kd xyz 1 1 1"),
            ("kd-third", "`Kd` whose third number is none.", "Kd 1 1 x"),
            ("kd-large", "`Kd` with a number beyond 2147483647 units.", "Kd 1 1 40000"),
            ("d-none", "`d` without a number.", "d # 1"),
            ("d-halo", "`d -halo`.", "d -halo 0.5")):
        yield library(f"library-{name}", shows, "library 1 line 2: bad number", "newmtl red", text)
    yield library("library-materials-4097", "4,097 names of materials in libraries.",
                  "library 1 line 4098: too many materials", "4096 newmtl {}", "1 newmtl 4096",
                  "1 newmtl red", recipe=True)
    yield library("library-too-long", "A library of 67,108,865 bytes.", "library 1 too long",
                  "67108865 ", recipe=True)
    yield scene("library-new-in-each", "Another library begins without a material.",
                "library 2 line 1: no material", "mtllib paints.mtl", "mtllib second.mtl", *POINTS,
                FACE, status=4, files={"paints.mtl": PAINTS, "second.mtl": "d 0.5\n"})


def order():
    bad = {"bad.mtl": "newmtl red\nKd 1 0\n"}
    yield scene("order-lines", "The first faulty line of a scene is told.",
                "line 2: too few elements", "mtllib nowhere.mtl", "f", "v", "usemtl")
    yield scene("order-one-line", "Of more faults of a line the first of its keyword is told.",
                "line 1: too few elements", "f 0 x")
    yield scene("order-library", "A library is told before the first unknown material.",
                "library 1 line 2: bad number", "mtllib bad.mtl", "usemtl nowhere", *POINTS, FACE,
                status=4, files=bad)
    yield scene("order-scene",
                "A faulty line of the scene is told before its libraries are fetched.",
                "line 6: bad index", "mtllib bad.mtl", *POINTS, "usemtl red", "f 1 2 4", files=bad)
    yield scene("order-libraries", "A library is fetched only after the one before it was read.",
                "library 1 line 2: bad number", "mtllib bad.mtl", "mtllib nowhere.mtl", status=4,
                files=bad)
    yield scene("order-pool", "An unknown material is told before a full pool.",
                "line 6: unknown material", "usemtl nowhere", *POINTS, "# more than one fragment",
                FACE, words="render --size 8x8 --move=-4,4,-4 --nodes 1")


def faults():
    yield Case("unread", "A scene that can't be read.", f"abuf {WORDS} < /proc/self/mem", {}, 6,
               "read fault")
    yield scene("folder-as-library", "A library that is a folder.", "read fault", "mtllib .",
                status=6)
    yield scene("file-as-folder", "A library by a path through a file.", "read fault",
                "mtllib file-as-folder.obj/paints.mtl", status=6)
    yield scene("zero-in-name", "A library with a zero byte in its name.", "read fault",
                b"mtllib paints\0.mtl\n", status=6)
    yield scene("bytes-in-name", "A library whose name isn't UTF-8.", "read fault",
                b"mtllib paints\xff.mtl\n", status=6)
    yield Case("full-device", "An output that can't be written.",
               f"abuf {WORDS} < written.obj > /dev/full", {"written.obj": lines(*POINTS, FACE)}, 7,
               "write fault")


NOT_UNDERSTOOD = [
    ("no-command", "No command.", ""),
    ("command", "Another command.", "draw"),
    ("command-case", "A command in capitals.", "Render"),
    ("option", "Another option.", "render --width 8"),
    ("short-option", "A short option.", "render -s 8x8"),
    ("part-of-option", "Only a part of an option's name.", "render --sam 4"),
    ("option-twice", "An option twice.", "render --samples 4 --samples 4"),
    ("no-value", "An option without a value.", "render --size"),
    ("minus-apart", "A value that begins with - and stands apart.", "render --move -4,4,-4"),
    ("value-of-render", "A value without a name for render.", "render 8x8"),
    ("ended-options", "A word after the end of the options.", "render -- x"),
    ("no-pixel", "No pixel for pick.", "pick --size 8x8"),
    ("two-pixels", "Two pixels for pick.", "pick 1,1 2,2"),
    ("minus-pixel", "A pixel that begins with -.", "pick -1,0"),
    ("help", "There is no help.", "render --help"),
]
BAD_VALUES = [
    ("size", "A width of 0.", "render --size 0x8"),
    ("size-large", "A height of 4097.", "render --size 8x4097"),
    ("size-pixels", "More than 4,194,304 pixels.", "render --size 4096x1025"),
    ("size-capital", "A capital X.", "render --size 8X8"),
    ("size-empty", "An empty value.", "render --size="),
    ("samples", "Three samples.", "render --samples 3"),
    ("samples-zero", "A number of samples with a leading zero.", "render --samples 04"),
    ("threads", "No threads.", "render --threads 0"),
    ("threads-65", "65 threads.", "render --threads 65"),
    ("threads-digits", "Threads in three digits.", "render --threads 001"),
    ("nodes", "No nodes.", "render --nodes 0"),
    ("nodes-large", "8,388,609 nodes.", "render --nodes 8388609"),
    ("turn", "A quaternion of zeros.", "render --turn 0,0,0,0"),
    ("turn-large", "A part of 1025.", "render --turn 1,0,0,1025"),
    ("turn-three", "A quaternion of three parts.", "render --turn 1,0,0"),
    ("turn-plus", "A part with a plus.", "render --turn 1,+1,0,0"),
    ("move", "A shift of two parts.", "render --move 0,0"),
    ("move-large", "A shift of 32768.", "render --move 0,0,32768"),
    ("focal", "A focal length of 0.", "render --focal 0"),
    ("focal-large", "A focal length beyond 16.", "render --focal 16.00001"),
    ("near", "A near plane at less than 1/16.", "render --near 0.0624"),
    ("near-minus", "A near plane behind the camera.", "render --near=-1"),
    ("background", "A background of two parts.", "render --background 1,1"),
    ("maxval", "Another greatest value.", "render --maxval 256"),
    ("at", "A pixel right of the image.", "pick 8,0 --size 8x8"),
    ("at-below", "A pixel below the image.", "pick 0,8 --size 8x8"),
    ("at-minus", "A pixel left of the image.", "pick -- -1,0"),
    ("at-digits", "A column of five digits.", "pick 00000,0"),
    ("number", "No triangles.", "demo 0"),
    ("number-large", "200,001 triangles.", "demo 200001"),
    ("order", "The first bad value of the table is told.", "render --near 0 --focal 0 --samples 3"),
]


def words():
    for name, shows, text in NOT_UNDERSTOOD:
        command = f"abuf {text}".rstrip()
        yield Case(f"words-{name}", shows, command, {}, 2, "words not understood")
    for name, shows, text in BAD_VALUES:
        told = "samples" if name == "order" else name.partition("-")[0]
        yield Case(f"value-{name}", shows, f"abuf {text}", {}, 2, f"bad value: {told}")


def cases():
    for part in (keywords, numbers, faces, names, long_files, libraries, order, faults, words):
        yield from part()
