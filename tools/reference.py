#!/usr/bin/env python3
"""What abuf answers, computed from the plain definitions.

    reference.py WORDS.. < scene.obj > image.pam

    reference.py render --size 40x30 --samples 4 < crossing.obj > crossing.pam

This program is an outside check of abuf. It takes the same words, reads the same files from the
working folder, and ends with the same status, output and message. So it has no --help, as abuf has
none. It shares no code with abuf and has none of its machinery: no lists of fragments, no pool of
nodes, no threads and no tiles. Each sample of each pixel asks every primitive by itself whether it
covers the sample; those that do are put in order by their depth there and folded over the
background. It is slow, and made to be read. Numbers and lines are those of abuflib/scene.py.

--threads has no effect; --nodes, --bands and --peel only decide whether the scene is refused. Whole
numbers are exact throughout.
"""

import os
import re
import sys
from dataclasses import dataclass, field, replace

from abuflib.scene import (ELEMENT, FARTHEST, MOST_BYTES, MOST_ELEMENTS, MOST_IMAGES, MOST_LIBRARIES, MOST_MATERIALS,
                           MOST_NODES, MOST_PATH_BYTES, MOST_PIXELS, MOST_POINTS, MOST_SIDE, MOST_TRIANGLES, MOST_TURN,
                           is_keyword, lines, round_div, scaled)

NEAREST_KEY = 16777215


class Refusal(Exception):
    """The end of a run by a status and a text, and the images of a sequence written before."""

    def __init__(self, status, text, written=b""):
        super().__init__(status, text)
        self.status = status
        self.text = text
        self.written = written


class ReadFault(Exception):
    """The outside could not give the bytes."""


# ---- numbers


def floor_div(n, m):
    """n / m rounded down, for m above 0."""
    return n // m


def held(n, low, high):
    return max(low, min(high, n))


# ---- the scene


@dataclass
class Face:
    line: int
    corners: list  # places in the list of points
    name: bytes | None  # the name that the nearest usemtl line above gives, or None


@dataclass
class Obj:
    points: list
    faces: list
    libraries: list


def read_obj(data):
    """The scene, or a Refusal by its first faulty line."""
    points, faces, names, libraries = [], [], set(), []
    triangles = 0
    name = None
    beyond = []  # faces whose positive indices reach past the points so far

    def refuse(line, cause):
        raise Refusal(3, f"line {line}: {cause}")

    for line in lines(data):
        if line.keyword == b"v":
            point = [scaled(token, 65536) for token in line.arguments[:3]]
            if len(point) < 3 or None in point:
                refuse(line.number, "bad number")
            if len(points) == MOST_POINTS:
                refuse(line.number, "too many points")
            points.append(tuple(point))
        elif line.keyword == b"f":
            if len(line.arguments) < 3:
                refuse(line.number, "too few elements")
            if len(line.arguments) > MOST_ELEMENTS:
                refuse(line.number, "too many elements")
            corners = []
            for token in line.arguments:
                match = ELEMENT.fullmatch(token)
                index = int(match.group(1)) if match else 0
                if index == 0 or index < -len(points):
                    refuse(line.number, "bad index")
                corners.append(index - 1 if index > 0 else len(points) + index)
            triangles += len(corners) - 2
            if triangles > MOST_TRIANGLES:
                refuse(line.number, "too many triangles")
            faces.append(Face(line.number, corners, name))
            if max(corners) >= len(points):
                beyond.append(faces[-1])
        elif line.keyword == b"usemtl":
            if not line.rest:
                refuse(line.number, "no name")
            if line.rest not in names and len(names) == MOST_MATERIALS:
                refuse(line.number, "too many materials")
            names.add(line.rest)
            name = line.rest
        elif line.keyword == b"mtllib":
            if not line.rest:
                refuse(line.number, "no name")
            if line.rest not in libraries:
                if len(libraries) == MOST_LIBRARIES:
                    refuse(line.number, "too many libraries")
                libraries.append(line.rest)
        elif not is_keyword(line.keyword):
            refuse(line.number, "unknown keyword")
    for face in beyond:
        if max(face.corners) >= len(points):
            refuse(face.line, "bad index")
    return Obj(points, faces, libraries)


# ---- the libraries


@dataclass
class Paint:
    colour: tuple = (65535, 65535, 65535)
    alpha: int = 65535


def read_mtl(data, number, materials):
    """Put the library's materials over those in the table, or raise a Refusal."""
    material = None

    def refuse(line, cause):
        raise Refusal(4, f"library {number} line {line}: {cause}")

    for line in lines(data):
        if line.keyword == b"newmtl":
            if not line.rest:
                refuse(line.number, "no name")
            if line.rest not in materials and len(materials) == MOST_MATERIALS:
                refuse(line.number, "too many materials")
            material = materials[line.rest] = Paint()
        elif line.keyword in (b"Kd", b"d"):
            if material is None:
                refuse(line.number, "no material")
            wanted = line.arguments[:3] if line.keyword == b"Kd" else line.arguments[:1]
            values = [scaled(token, 65535) for token in wanted]
            if len(values) not in (1, 3) or None in values:
                refuse(line.number, "bad number")
            values = [held(value, 0, 65535) for value in values]
            if line.keyword == b"d":
                material.alpha = values[0]
            else:
                material.colour = tuple(values if len(values) == 3 else values * 3)


def triangles_of(obj, materials):
    """The fans of all faces in order, each triangle with its three points and its paint."""
    triangles = []
    for face in obj.faces:
        if face.name is None:
            paint = Paint()
        elif face.name in materials:
            paint = materials[face.name]
        else:
            raise Refusal(3, f"line {face.line}: unknown material")
        for b, c in zip(face.corners[1:], face.corners[2:]):
            corners = [obj.points[place] for place in (face.corners[0], b, c)]
            triangles.append((corners, paint))
    return triangles


def demonstration(number):
    """The scene and the library of the command demo."""
    state = number
    scene = ["mtllib demo.mtl"]

    def draw():
        nonlocal state
        state = (1664525 * state + 1013904223) % 2 ** 32
        return state // 2 ** 24 - 128

    for i in range(number):
        for _ in range(3):
            x, y, z = draw(), draw(), draw()
            scene.append(f"v {x}e-2 {y}e-2 {z}e-2")
        scene += [f"usemtl m{i % 8}", "f -3 -2 -1"]
    colours = ["1 0 0", "0 1 0", "0 0 1", "1 1 0", "0 1 1", "1 0 1", "1 1 1", "0.5 0.5 0.5"]
    alphas = ["0.125", "0.25", "0.375", "0.5", "0.625", "0.75", "0.875", "1"]
    library = []
    for k in range(8):
        library += [f"newmtl m{k}", f"Kd {colours[k]}", f"d {alphas[k]}"]
    return ("\n".join(scene) + "\n").encode(), ("\n".join(library) + "\n").encode()


# ---- the path of a sequence


@dataclass
class Shot:
    """What one line of a path says of the camera."""
    turn: tuple
    shift: tuple


def read_path(data):
    """The shots of a path, or a Refusal by its first faulty line."""
    shots = []

    def refuse(line, cause):
        raise Refusal(9, f"path line {line}: {cause}")

    for line in lines(data):
        tokens = [line.keyword] + line.arguments
        if len(tokens) != 7:
            refuse(line.number, "wrong count")
        turn = tuple(turn_part(token.decode("latin-1")) for token in tokens[:4])
        if None in turn or not any(turn):
            refuse(line.number, "bad turn")
        shift = tuple(scaled(token, 65536) for token in tokens[4:])
        if None in shift:
            refuse(line.number, "bad number")
        if len(shots) == MOST_IMAGES:
            refuse(line.number, "too many images")
        shots.append(Shot(turn, shift))
    return shots


def shots_of(name, fetch):
    """The shots of the path of this name, or a Refusal."""
    data = fetch(name, MOST_PATH_BYTES + 1)
    if data is None:
        raise Refusal(9, "path missing")
    if len(data) > MOST_PATH_BYTES:
        raise Refusal(9, "path too long")
    return read_path(data)


# ---- words


@dataclass
class Job:
    width: int = 640
    height: int = 480
    samples: int = 1
    nodes: int = 4194304
    turn: tuple = (1, 0, 0, 0)
    shift: tuple = (0, 0, -4 * 65536)
    focal: int = 65536
    near: int = 8192
    background: tuple = (0, 0, 0)
    maxval: int = 255
    bands: int | None = None
    peel: bool = False
    path: bytes | None = None
    at: tuple | None = None
    number: int | None = None


OPTIONS = ["size", "samples", "threads", "nodes", "turn", "move", "focal", "near",
           "background", "maxval"]
RENDER_OPTIONS = ["bands"]
RENDER_FLAGS = ["peel"]
CAMERA_OPTIONS = ["turn", "move"]  # which a sequence doesn't have
POSITIONALS = {"render": None, "pick": "at", "demo": "number", "sequence": "path"}


def options_of(command):
    """The names of the options of a command that take a value."""
    if command == "sequence":
        return [name for name in OPTIONS if name not in CAMERA_OPTIONS]
    return OPTIONS + RENDER_OPTIONS if command == "render" else OPTIONS


def matches_of(command, words):
    """The texts of the options and of the positional, or None where the words don't parse.

    Options are written --name value or --name=value, and flags --name, each at most once and in any
    order. A value written apart may not begin with '-', unless it is '-' alone. After '--' all is
    positional.
    """
    options = options_of(command)
    flags = RENDER_FLAGS if command == "render" else []
    found, positionals = {}, []
    only_positionals = False
    rest = list(words)
    while rest:
        word = rest.pop(0)
        if only_positionals or word == "-" or not word.startswith("-"):
            positionals.append(word)
        elif word == "--":
            only_positionals = True
        else:
            name, equals, value = word[2:].partition("=")
            if not word.startswith("--") or name not in options + flags or name in found:
                return None
            if name in flags:
                if equals:
                    return None
                value = ""
            elif not equals:
                if not rest or (rest[0].startswith("-") and rest[0] != "-"):
                    return None
                value = rest.pop(0)
            found[name] = value
    positional = POSITIONALS[command]
    if len(positionals) != (0 if positional is None else 1):
        return None
    if positional is not None:
        found[positional] = positionals[0]
    return found


def whole(text, most_digits, low, high):
    """A number of one to so many digits within a range, or None."""
    if not re.fullmatch(r"[0-9]{1,%d}" % most_digits, text) or not low <= int(text) <= high:
        return None
    return int(text)


def several(text, divider, count, read):
    """So many parts with a divider between them, each read, or None."""
    parts = [read(part) for part in text.split(divider)]
    return None if len(parts) != count or None in parts else tuple(parts)


def turn_part(text):
    if not re.fullmatch(r"-?[0-9]{1,4}", text) or not -MOST_TURN <= int(text) <= MOST_TURN:
        return None
    return int(text)


def number_by(k, low=-FARTHEST, high=FARTHEST):
    """The reader of a decimal number times k within a range."""

    def read(text):
        value = scaled(text.encode(), k)
        return value if value is not None and low <= value <= high else None

    return read


def number_of_samples(text):
    return int(text) if text in ("1", "2", "4", "8", "16") else None


def channel(text):
    value = scaled(text.encode(), 65535)
    return None if value is None else held(value, 0, 65535)


def job_of(words):
    """The job that the words give, or a Refusal."""
    if not words or words[0] not in POSITIONALS:
        raise Refusal(2, "words not understood")
    found = matches_of(words[0], words[1:])
    if found is None:
        raise Refusal(2, "words not understood")
    job = Job()

    def take(name, read):
        if name not in found:
            return None
        value = read(found[name])
        if value is None:
            raise Refusal(2, f"bad value: {name}")
        return value

    def size(text):
        sides = several(text, "x", 2, lambda side: whole(side, 4, 1, MOST_SIDE))
        return sides if sides and sides[0] * sides[1] <= MOST_PIXELS else None

    def turn(text):
        parts = several(text, ",", 4, turn_part)
        return parts if parts and any(parts) else None

    def place(text):
        x_and_y = several(text, ",", 2, lambda part: whole(part, 4, 0, 9999))
        if x_and_y and x_and_y[0] < job.width and x_and_y[1] < job.height:
            return x_and_y
        return None

    job.width, job.height = take("size", size) or (job.width, job.height)
    job.samples = take("samples", number_of_samples) or job.samples
    take("threads", lambda text: whole(text, 2, 1, 64))
    job.nodes = take("nodes", lambda text: whole(text, 7, 1, MOST_NODES)) or job.nodes
    job.turn = take("turn", turn) or job.turn
    job.shift = take("move", lambda text: several(text, ",", 3, number_by(65536))) or job.shift
    job.focal = take("focal", number_by(65536, 1, 1048576)) or job.focal
    job.near = take("near", number_by(65536, 4096, FARTHEST)) or job.near
    job.background = (
        take("background", lambda text: several(text, ",", 3, channel)) or job.background
    )
    job.maxval = take("maxval", lambda t: int(t) if t in ("255", "65535") else None) or job.maxval
    job.peel = "peel" in found
    job.bands = take("bands", lambda t: None if job.peel else whole(t, 4, 1, job.height))
    job.path = take("path", lambda text: text.encode() or None)
    job.at = take("at", place)
    job.number = take("number", lambda text: whole(text, 6, 1, 200000))
    return job


# ---- from triangles to primitives on the screen


def seen(job, p):
    """A point as the camera sees it: x to the right, y upwards, w the distance in front."""
    a, b, c, d = job.turn
    n = a * a + b * b + c * c + d * d
    rows = (
        (a * a + b * b - c * c - d * d, 2 * (b * c - a * d), 2 * (b * d + a * c)),
        (2 * (b * c + a * d), a * a - b * b + c * c - d * d, 2 * (c * d - a * b)),
        (2 * (b * d - a * c), 2 * (c * d + a * b), a * a - b * b - c * c + d * d),
    )
    turned = [sum(row[i] * p[i] for i in range(3)) for row in rows]
    x, y, z = (turned[i] + n * job.shift[i] for i in range(3))
    return (x, y, -z)


def cut(inside, outside, m):
    """The point at distance m on the edge, always reckoned from its inside end."""
    part, whole_length = inside[2] - m, inside[2] - outside[2]
    x = inside[0] + floor_div((outside[0] - inside[0]) * part, whole_length)
    y = inside[1] + floor_div((outside[1] - inside[1]) * part, whole_length)
    return (x, y, m)


def clipped(corners, m):
    """What is left of the triangle in front of the near plane: no, one or two triangles."""
    a, b, c = corners
    is_inside = [corner[2] >= m for corner in corners]
    if is_inside == [False, True, True] or is_inside == [False, True, False]:
        a, b, c = b, c, a
    elif is_inside == [True, False, True] or is_inside == [False, False, True]:
        a, b, c = c, a, b
    if sum(is_inside) == 3:
        return [(a, b, c)]
    if sum(is_inside) == 2:
        return [(a, b, cut(b, c, m)), (a, cut(b, c, m), cut(a, c, m))]
    if sum(is_inside) == 1:
        return [(a, cut(a, b, m), cut(a, c, m))]
    return []


def on_screen(job, corner):
    """A corner in 1/256 pixel, y downwards, with its depth value; a greater one is nearer."""
    x, y, w = corner
    n = sum(part * part for part in job.turn)
    return (
        128 * job.width + round_div(128 * job.height * job.focal * x, 65536 * w),
        128 * job.height - round_div(128 * job.height * job.focal * y, 65536 * w),
        floor_div(NEAREST_KEY * n * job.near, w),
    )


def edge(a, b, s):
    """The edge function: above 0 where s lies to the right of the way from a to b on the screen."""
    return (b[0] - a[0]) * (s[1] - a[1]) - (b[1] - a[1]) * (s[0] - a[0])


@dataclass
class Primitive:
    corners: tuple  # in positive order
    area: int  # the edge function of the three corners; 0 where there is no area
    paint: Paint


def primitives_of(job, triangles):
    """All primitives; the place in the list is the primitive number."""
    m = sum(part * part for part in job.turn) * job.near
    primitives = []
    for corners, paint in triangles:
        for piece in clipped([seen(job, p) for p in corners], m):
            a, b, c = (on_screen(job, corner) for corner in piece)
            area = edge(a, b, c)
            if area < 0:
                b, c = c, b
            primitives.append(Primitive((a, b, c), abs(area), paint))
    return primitives


# ---- samples


# Offsets from the pixel's centre in 1/16 pixel, x to the right and y downwards.
OFFSETS = {
    1: [(0, 0)],
    2: [(4, 4), (-4, -4)],
    4: [(-2, -6), (6, -2), (-6, 2), (2, 6)],
    8: [(1, -3), (-1, 3), (5, 1), (-3, -5), (-5, 5), (-7, -1), (3, 7), (7, -7)],
    16: [(1, 1), (-1, -3), (-3, 2), (4, -1), (-5, -2), (2, 5), (5, 3), (3, -5),
         (-2, 6), (0, -7), (-4, -6), (-6, 4), (-8, 0), (7, -4), (6, 7), (-7, -8)],
}


def samples_of(job, x, y):
    """The places of the pixel's samples in 1/256 pixel."""
    return [
        (256 * x + 128 + 16 * right, 256 * y + 128 + 16 * down)
        for right, down in OFFSETS[job.samples]
    ]


def covers(primitive, s):
    """The top-left rule: inside, or on an edge that is a left or a top edge."""
    if primitive.area == 0:
        return False
    a, b, c = primitive.corners
    for start, end in ((a, b), (b, c), (c, a)):
        value = edge(start, end, s)
        is_left = end[1] < start[1]
        is_top = end[1] == start[1] and end[0] > start[0]
        if value < 0 or value == 0 and not (is_left or is_top):
            return False
    return True


def depth_key(primitive, s):
    """The depth at a sample that the primitive covers; a greater one is nearer."""
    a, b, c = primitive.corners
    total = edge(b, c, s) * a[2] + edge(c, a, s) * b[2] + edge(a, b, s) * c[2]
    return floor_div(total, primitive.area)


def over(under, colour, alpha):
    """One channel of the colour with this alpha over what is under it."""
    return round_div(alpha * colour, 65535) + round_div((65535 - alpha) * under, 65535)


def covering(primitives, s):
    """The depths and numbers of the primitives that cover the sample, the farthest first; of equal
    depths the lower number."""
    return sorted((depth_key(primitive, s), n)
                  for n, primitive in enumerate(primitives) if covers(primitive, s))


def sample_colour(job, primitives, covering_it):
    """The primitives that cover a sample over the background, in their order."""
    colour = list(job.background)
    for _, n in covering_it:
        paint = primitives[n].paint
        for i in range(3):
            colour[i] = over(colour[i], paint.colour[i], paint.alpha)
    return colour


def pixel_value(job, total):
    """A channel of the image from the sum over the pixel's samples."""
    s = job.samples
    if job.maxval == 255:
        return floor_div(2 * total + 257 * s, 514 * s)
    return floor_div(2 * total + s, 2 * s)


# ---- what is written


def image_of(job, values):
    header = f"P7\nWIDTH {job.width}\nHEIGHT {job.height}\nDEPTH 3\nMAXVAL {job.maxval}\n"
    header += "TUPLTYPE RGB\nENDHDR\n"
    width = 1 if job.maxval == 255 else 2
    return header.encode(), b"".join(value.to_bytes(width, "big") for value in values)


def report_of(samples):
    """The text of pick: the pixel's fragments by number, then what covers each of its samples."""
    masks = {}
    for k, covering_it in enumerate(samples):
        for _, n in covering_it:
            masks[n] = masks.get(n, 0) + 2 ** k
    text = f"fragments {len(masks)}\n"
    for n in sorted(masks):
        text += f"prim {n} mask {masks[n]}\n"
    for k, covering_it in enumerate(samples):
        text += f"sample {k}" + "".join(f" prim {n} depth {z}" for z, n in covering_it) + "\n"
    return text.encode()


def output_of(words, read_scene, fetch):
    """All that is written for these words, or a Refusal or ReadFault.

    read_scene(most) gives the scene, at most so many bytes of it, and fetch(name, most) a file of
    the working folder in the same way, or None where there is no such file.
    """
    job = job_of(words)
    shots = None if job.path is None else shots_of(job.path, fetch)
    if job.number is None:
        scene = read_scene(MOST_BYTES + 1)
        if len(scene) > MOST_BYTES:
            raise Refusal(3, "scene too long")
    else:
        scene, library = demonstration(job.number)
        fetch = lambda name, most: library
    obj = read_obj(scene)
    materials = {}
    for number, name in enumerate(obj.libraries, 1):
        data = fetch(name, MOST_BYTES + 1)
        if data is None:
            raise Refusal(4, f"library {number} missing")
        if len(data) > MOST_BYTES:
            raise Refusal(4, f"library {number} too long")
        read_mtl(data, number, materials)
    triangles = triangles_of(obj, materials)
    if shots is not None:
        return sequence_of(job, shots, triangles)
    drawn = draw(job, primitives_of(job, triangles))
    if job.bands is not None:
        check_bands(job, drawn.totals)
    elif drawn.is_too_large_for(job):
        raise Refusal(5, drawn.full_pool(job))
    if drawn.report is not None:
        return drawn.report
    header, image = image_of(job, drawn.values)
    if job.number is None:
        return header + image
    text = f"triangles {drawn.primitives}\nfragments {drawn.total}\nlongest {drawn.longest}\n"
    return (text + f"sum {sum(image)}\n").encode()


@dataclass
class Drawn:
    """What is known of an image once each sample of each pixel has asked all primitives."""
    primitives: int  # how many there are
    values: list = field(default_factory=list)
    totals: list = field(default_factory=list)  # the fragments of each row
    longest: int = 0
    report: bytes | None = None  # of the pixel that is picked

    @property
    def total(self):
        return sum(self.totals)

    def is_too_large_for(self, job):
        return self.total > job.nodes and not job.peel

    def full_pool(self, job):
        return f"pool full: {self.total} fragments, {job.nodes} nodes"


def draw(job, primitives):
    """The image of the primitives."""
    drawn = Drawn(len(primitives))
    for y in range(job.height):
        drawn.totals.append(0)
        for x in range(job.width):
            samples = [covering(primitives, s) for s in samples_of(job, x, y)]
            length = len({n for covering_it in samples for _, n in covering_it})
            drawn.totals[y] += length
            drawn.longest = max(drawn.longest, length)
            if job.at == (x, y):
                drawn.report = report_of(samples)
            if job.at is None:
                colours = [sample_colour(job, primitives, one) for one in samples]
                drawn.values += [pixel_value(job, sum(channels)) for channels in zip(*colours)]
    return drawn


def sequence_of(job, shots, triangles):
    """The images of all shots, joined, or a Refusal by the first that the pool doesn't hold."""
    written = b""
    for number, shot in enumerate(shots, 1):
        own = replace(job, turn=shot.turn, shift=shot.shift)
        drawn = draw(own, primitives_of(own, triangles))
        if drawn.is_too_large_for(own):
            raise Refusal(5, f"image {number}: {drawn.full_pool(own)}", written)
        written += b"".join(image_of(own, drawn.values))
    return written


def check_bands(job, totals):
    """Refuses the first band that has more fragments than there are nodes, from those of each row."""
    for band in range(job.bands):
        first, end = (k * job.height // job.bands for k in (band, band + 1))
        total = sum(totals[first:end])
        if total > job.nodes:
            raise Refusal(5, f"band {band + 1} full: {total} fragments, {job.nodes} nodes")


def answer(words, read_scene, fetch):
    """The status, the output and the message of a run. Words are texts; None stands for words that
    aren't UTF-8."""
    try:
        return 0, output_of(words or [], read_scene, fetch), b""
    except Refusal as refusal:
        return refusal.status, refusal.written, refusal.text.encode() + b"\n"
    except ReadFault:
        return 6, b"", b"read fault\n"


# ---- the program


def read_file(descriptor, most):
    """At most so many bytes of an open file."""
    parts, length = [], 0
    while length < most:
        try:
            part = os.read(descriptor, min(most - length, 1 << 20))
        except OSError:
            raise ReadFault from None
        if not part:
            break
        parts.append(part)
        length += len(part)
    return b"".join(parts)


def fetch_from_folder(name, most):
    """A file by its path, or None where there is no such file; all else that fails is a fault."""
    try:
        name.decode("utf-8")
        descriptor = os.open(name, os.O_RDONLY)
    except FileNotFoundError:
        return None
    except (OSError, ValueError):
        raise ReadFault from None
    try:
        return read_file(descriptor, most)
    finally:
        os.close(descriptor)


def write_file(descriptor, data):
    while data:
        data = data[os.write(descriptor, data):]


def main():
    try:
        words = [os.fsencode(word).decode("utf-8") for word in sys.argv[1:]]
    except UnicodeDecodeError:
        words = None
    status, out, err = answer(words, lambda most: read_file(0, most), fetch_from_folder)
    try:
        write_file(1, out)
    except OSError:
        status, err = 7, b"write fault\n"
    try:
        write_file(2, err)
    except OSError:
        pass
    os._exit(status)


if __name__ == "__main__":
    main()
