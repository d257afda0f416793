"""What is read of scenes and libraries."""

from scenes.drawing import PAINTS, Case, lines

WORDS = "render --size 8x8 --move=-4,4,-4 --nodes 1024"
HEAD = "# The point (x, -y, 0) lies x pixels from the left of the image and y from its top.\n"
SQUARE = ["v 1 -1 0", "v 7 -1 0", "v 7 -7 0", "v 1 -7 0"]
QUARTERS = ["v 1 -1 0", "v 4 -1 0", "v 7 -1 0", "v 1 -4 0", "v 4 -4 0", "v 7 -4 0", "v 1 -7 0",
            "v 4 -7 0", "v 7 -7 0"]
# The four quarters of the square from 1 1 to 7 7, by these points.
FACES = ["f 1 2 5 4", "f 2 3 6 5", "f 4 5 8 7", "f 5 6 9 8"]


def case(name, shows, scene, words="", **libraries):
    """A case of 8x8 pixels with the standard paints, or with libraries of its own."""
    files = {f"{name}.obj": scene}
    text = scene if isinstance(scene, bytes) else scene.encode()
    if b"mtllib paints.mtl" in text:
        files["paints.mtl"] = PAINTS
    files.update(libraries.pop("library_files", {}))
    return Case(name, shows, f"abuf {WORDS}{' ' if words else ''}{words} < {name}.obj", files)


def painted(*pairs):
    """Quarters, each under its paint."""
    text = []
    for paint, face in zip(pairs, FACES):
        text += [f"usemtl {paint}", face]
    return text


def numbers():
    yield case("numbers", "All forms of numbers: signs, points at either end, exponents, thirty "
               "digits, and exponents of three digits.", HEAD + lines(
                   "v 1 -1. .0", "v +4.0 -10e-1 0e999", "v 4e0 -4E+0 -0", "v 0.1E1 -.4e+1 1e-999",
                   "f 1 2 3 4",
                   "v 000000000000000000000000000004 -4.00000000000000000000000000000 0",
                   "v 70e-001 -00004 0.", "v 7.000 -.07e2 +0", "v 4000000e-6 -0.0007e4 0",
                   "f 5 6 7 8"))
    body = ["# A pixel is 32 units of 1/65536; centres lie at 16 and -16 units from the middle.",
            "# Left sides: 16, 16.5, 16.49999999, -15.5, -15.49999999 and -16 units."]
    sides = ["2441406250000e-16", "25177001953125e-17", "251770019378662109375e-24",
             "-23651123046875e-17", "-236511230316162109375e-24", "-2441406250000e-16"]
    for row, text in enumerate(sides):
        top, bottom = (f"{32 * (3 - row - i) * 152587890625}e-16" for i in (0, 1))
        right = f"{128 * 152587890625}e-16"
        body += [f"v {text} {top} 0", f"v {right} {top} 0", f"v {right} {bottom} 0",
                 f"v {text} {bottom} 0", "f -4 -3 -2 -1"]
    files = {"rounded.obj": lines(*body)}
    yield Case("rounded", "Coordinates are rounded to units of 1/65536, halves away from 0.",
               "abuf render --size 16x16 --focal 16 --near 0.0625 --move 0,0,-0.0625 --nodes 1024 "
               "< rounded.obj", files)


def text():
    yield case("line-ends", "Lines may end in CR and LF, tabs divide tokens, and the last line "
               "needs no end.",
               "\r\n".join(["# line ends", "\tv\t1 -1\t0 ", "", "  v 7 -1 0", "v 7 -7 0", " ",
                            "v 1 -7 0", "f 1 2 3 4"]))
    yield case("comments", "A token that begins with # ends a line of v or f, and a line that "
               "begins with it is passed over.", HEAD + lines(
                   "#v 0 0 0", "  # v 0 0 0", "v 1 -1 0 # 5", "v 7 -1 0 #", "v 7 -7 0 #9 9",
                   "v 1 -7 0", "f 1 2 3 # 4"))
    yield case("passed-over", "Keywords without a meaning are passed over with all that follows, "
               "and so are further numbers of a point.", HEAD + lines(
                   "o square", "g one two", "s off", "vt 0.5 x", "vn nan", "vp", "v 1 -1 0 1",
                   "v 7 -1 0 0.5 0.5 0.5", "v 7 -7 0 no number", "v 1 -7 0", "l 1 2 99", "p 0",
                   "F 1 2 3", "V", "mg 0", "lod 1", "f 1 2 3 4", "fo 1 2 3", "!~", "curv3 x"))
    yield case("empty", "An empty file is a scene without faces.", "", words="--background 0,0.5,0")
    yield case("points-alone", "Points without faces draw nothing.", HEAD + lines(*SQUARE))


def faces():
    yield case("elements", "Elements with texture and normal indices, empty ones, and indices of "
               "ten digits: the point alone counts.", HEAD + lines(
                   *QUARTERS, "f 1/7/2 2//2 5/7 4/", "f 2// 3/0/0 0000000006 5/-9/-9999999999",
                   "f 4//0 5/1/ 0000000008//1 7/9999999999"))
    yield case("from-the-end", "Negative indices count back from the last point above the face.",
               HEAD + lines(*QUARTERS[:6], "f -6 -5 -2 -3", *QUARTERS[6:], "f -5 -4 -1 -2",
                            "f -9/-1/1 -8//-5 -5 -6/-3"))
    yield case("faces-first", "A face may stand before its points.", HEAD + lines(
        "f 1 2 3", *SQUARE[:2], "f 1 3 4", *SQUARE[2:]))
    arrow = ["mtllib paints.mtl", "usemtl white_film", "v 0 -4 0", "v 8 0 0", "v 3 -4 0",
             "v 8 -8 0"]
    yield case("fan", "A face is drawn as a fan about its first corner, here the tip of an arrow.",
               HEAD + lines(*arrow, "f 1 2 3 4"))
    yield case("fan-next", "An arrow drawn from its second corner on: the fan goes beyond the "
               "notch, and its triangles overlap.", HEAD + lines(*arrow, "f 2 3 4 1"))
    yield case("both-sides", "Both sides of a face are drawn.", HEAD + lines(
        "mtllib paints.mtl", *QUARTERS, "usemtl red", "f 1 2 5 4", "usemtl green", "f 9 6 5 8",
        "usemtl blue", "f 5 6 3 2", "usemtl yellow", "f 4 5 8 7"))
    yield case("one-point-twice", "A face may name a point more than once.", HEAD + lines(
        "mtllib paints.mtl", *SQUARE, "usemtl white_film", "f 1 1 2 3 3", "f 1 2 1", "f 4 4 4"))


def materials():
    yield case("no-material", "Faces above the first usemtl are white and opaque.", HEAD + lines(
        *QUARTERS, FACES[0], "mtllib paints.mtl", "usemtl red_film", FACES[3], "usemtl blue_film"))
    yield case("names", "The rest of a line is one name, with spaces and # in it; case matters.",
               HEAD + lines("mtllib names.mtl", *QUARTERS,
                            *painted("two words", "Two words", "#2", "two  words # no comment"))
               + "usemtl \t#2 \r\nv 0 0 0\nv 1 0 0\nv 1 -1 0\nf -3 -2 -1\n",
               library_files={"names.mtl": lines(
                   "newmtl two words", "Kd 1 0 0", "newmtl \tTwo words ", "Kd 0 1 0", "newmtl #2",
                   "Kd 0 0 1", "newmtl two  words # no comment", "Kd 1 1 0")})
    yield case("library-names", "The name of a library may have spaces, and a folder in it.",
               HEAD + lines("mtllib ./the paints.mtl", *QUARTERS,
                            *painted("one", "two", "one", "two")),
               library_files={"the paints.mtl": lines("newmtl one", "Kd 1 0 0", "newmtl two",
                                                      "Kd 0 0 1")})
    first = lines("# first", "newmtl a", "Kd 1 0 0", "newmtl b", "Kd 1 0 0", "d 0.5", "newmtl c",
                  "Kd 1 0 0", "newmtl c", "d 0.25")
    second = lines("# second", "newmtl b", "Kd 0 1 0", "newmtl d", "Kd 0 0 1")
    yield case("libraries", "Of materials with one name the last holds, over all libraries in "
               "their order, and begins anew; a library named twice is read once.",
               HEAD + lines("mtllib first.mtl", *QUARTERS, *painted("a", "b", "c", "d"),
                            "mtllib second.mtl", "mtllib first.mtl"),
               library_files={"first.mtl": first, "second.mtl": second})
    yield case("unused", "A material that no face has may be in no library.", HEAD + lines(
        *SQUARE, "usemtl nowhere", "usemtl nowhere else", "mtllib paints.mtl", "usemtl red",
        "f 1 2 3 4"))


def paints():
    library = lines(
        "# paints by all forms of lines", "\tnewmtl  a\r", "  Kd 1 0 0  0.5 x\r",
        "Kd 0 1 0 # the last holds", "newmtl b", "Kd .5 # one for all three", "Ns 10", "illum 2",
        "Tr 0.9", "map_Kd picture.png", "kd 1 1 1", "D 0", "Ka x", "\u00e9 1", "newmtl c", "d 0.25",
        "d 1e-0 0.5", "Kd 0 0 1", "d 0.5 #", "newmtl d")
    yield case("paints", "The last Kd and the last d of a material hold, one number stands for "
               "three, and other keywords are passed over.",
               HEAD + lines("mtllib forms.mtl", *QUARTERS, *painted("a", "b", "c", "d")),
               library_files={"forms.mtl": library})
    library = lines("newmtl a", "Kd 2 -1 0.5", "newmtl b", "Kd 0 30000 -30000", "d 1.5", "newmtl c",
                    "d -0.5", "newmtl d", "Kd -0.00001 1.00001 1e-6", "d 1e-5")
    yield case("held", "Colours and alpha are held into 0 to 1, and rounded to units of 1/65535.",
               HEAD + lines("mtllib held.mtl", *QUARTERS, *painted("a", "b", "c", "d")),
               "--maxval 65535", library_files={"held.mtl": library})
    library = lines("# 0.5 units of 1/65535 are 0.0000076295109483482..", "newmtl a",
                    "Kd 0.00000762951 0.000007629510948 0.00000762951094835", "newmtl b",
                    "Kd .5 0.49999999 0.50000001", "newmtl c", "Kd 0.333333333 0.666666667 0.2",
                    "newmtl d", "Kd 1", "d 0.500007")
    yield case("colour-rounding", "A colour is the nearest whole number of 1/65535, so that 0.5 is "
               "32768.",
               HEAD + lines("mtllib rounding.mtl", *QUARTERS, *painted("a", "b", "c", "d")),
               "--maxval 65535", library_files={"rounding.mtl": library})


def cases():
    for part in (numbers, text, faces, materials, paints):
        yield from part()
