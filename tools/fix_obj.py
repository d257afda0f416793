#!/usr/bin/env python3
"""Fixes an OBJ model, with its libraries, so that abuf draws it, and says each thing that it changes.

    fix_obj.py MODEL.obj [FIXED.obj] [--scale S] [--origin X,Y,Z] [--tr inverted | --tr alpha] [--all]

    fix_obj.py chair.obj fixed.obj && abuf render $(fit.py fixed.obj) < fixed.obj > chair.pam

Each change is told with its lines; all other bytes stay as they are, and so do the numbers of the lines, except where a line
becomes several. Without FIXED.obj nothing is written, and what would be changed is told. A library that is fixed, or that
FIXED.obj would not find in its folder, is written beside it as FIXED-NAME.mtl. Nothing is ever written over what was read.

What is fixed:

    the file      a byte order mark, UTF-16, lines that end in CR alone, lines continued by a backslash
    points        nan and inf (made 0), a comma as the point, numbers of too many digits, missing numbers (made 0), and coordinates
                  beyond 32767: the origin is moved if that is enough, or else the model is scaled by a power of ten
    faces         of fewer than three corners (made l lines), of more than 1024 (cut), elements of another form, points that are
                  counted from 0, and points that aren't there (the face is left out)
    statements    free-form curves and surfaces, and keywords that aren't printable ASCII (made comments)
    libraries     several on a line, paths of another machine, names in other capitals; one that is missing, if another in the
                  folder has its materials
    materials     those without a name, and those that are in no library: white and opaque ones are written into FIXED-new.mtl
    Kd and d      other forms of numbers, -halo, and lines above the first newmtl (made comments)

--scale       multiplies each coordinate, as for a model that is too small for the camera.
--origin      the point that becomes the origin, before the scale.
--tr          makes a d of each Tr in materials without a d: 1 - Tr (inverted), or Tr itself (alpha). Without it they stay
              opaque, since producers of Tr disagree on its meaning.
--all         tells all lines of a change, where there are very many.

The status is 0, or 1 where something is left for which abuf refuses the model, which is told.
"""

import argparse
import os
import re
import sys
from decimal import Decimal
from typing import Iterator

from abuflib import report, scene
from abuflib.report import Fault
from abuflib.scene import BLANKS

MOST_RANGES = 12  # of lines that are told of a change
# The usual lines, in which there is nothing to look for.
PLAIN_POINT = re.compile(rb"[ \t]*v(?:[ \t]+[+-]?[0-9]{1,4}(?:\.[0-9]{0,20})?(?:[eE]-[0-9]{1,2})?){3}[ \t\r]*")
PLAIN_FACE = re.compile(rb"[ \t]*f(?:[ \t]+[1-9][0-9]{0,6}(?:/[0-9]{0,9}){0,2}){3,1024}[ \t\r]*")
POINT_OF_ELEMENT = re.compile(rb"[ \t]([0-9]+)")
ZERO = re.compile(rb"[ \t]0+(?:[/ \t\r]|$)")
IGNORED = (b"vn ", b"vt ", b"#", b"g ", b"s ")
NUMBER = re.compile(rb"[+-]?(?:[0-9]+\.?[0-9]*|\.[0-9]+)(?:[eE][+-]?[0-9]+)?")
COMMA = re.compile(rb"[+-]?[0-9]*,[0-9]+(?:[eE][+-]?[0-9]+)?")
NO_NUMBER = re.compile(rb"[-+]?(?:1\.#)?(?:q?s?nan|inf|ind)(?:inity)?.*", re.IGNORECASE)
INDEX = re.compile(rb"\+?(-?[0-9]{1,10})(?:\.0*)?(?=/|$)")


class Changes:
    """What was changed in a file: for each kind of change its lines."""

    def __init__(self, name: str) -> None:
        self.name = name
        self.kinds: dict[str, list[int]] = {}

    def add(self, line: int, kind: str) -> None:
        self.kinds.setdefault(kind, []).append(line)

    def tell(self, is_all: bool) -> Iterator[str]:
        for kind, lines in sorted(self.kinds.items(), key=lambda item: min(item[1])):
            if lines == [0]:
                yield f"{self.name}: {kind}"
            else:
                yield f"{self.name}: {ranges(sorted(set(lines)), is_all)}: {kind}"


def ranges(lines: list[int], is_all: bool) -> str:
    """Numbers of lines, as 'line 3' or 'lines 3-5, 9'."""
    found: list[list[int]] = []
    for line in lines:
        if found and line == found[-1][1] + 1:
            found[-1][1] = line
        else:
            found.append([line, line])
    told = [str(a) if a == b else f"{a}-{b}" for a, b in found]
    if len(told) > MOST_RANGES and not is_all:
        left = sum(b - a + 1 for a, b in found[MOST_RANGES:])
        told[MOST_RANGES:] = [f"and {left} more"]
    return ("line " if len(lines) == 1 else "lines ") + ", ".join(told)


# ---- the bytes of a file


def load(path: str, changes: Changes) -> list[bytes]:
    """The lines of a file, without their LF. Lines that others continue stand as one, with empty lines behind it."""
    with open(path, "rb") as file:
        data = file.read()
    if data[:2] in (b"\x1f\x8b", b"PK") or data[:3] == b"BZh" or data[:6] == b"\xfd7zXZ\0":
        raise Fault(f"{path}: a compressed file; unpack it first")
    data = decoded(data, path, changes)
    if b"\n" not in data and b"\r" in data:
        changes.add(0, "lines ended in CR alone, and end in LF now")
        data = data.replace(b"\r", b"\n")
    if b"\0" in data:
        raise Fault(f"{path}: not a text, since it has zero bytes; is it a model of another kind?")
    lines = data.split(b"\n")
    join(lines, changes)
    return lines


def decoded(data: bytes, path: str, changes: Changes) -> bytes:
    """The bytes as UTF-8 without a byte order mark."""
    if data.startswith(b"\xef\xbb\xbf"):
        changes.add(1, "a byte order mark, left out")
        return data[3:]
    zeros = [data[:2000][k::2].count(0) for k in (0, 1)]
    coding = "utf-16" if data[:2] in (b"\xff\xfe", b"\xfe\xff") else \
        "utf-16-be" if zeros[0] > 9 * zeros[1] + 9 else "utf-16-le" if zeros[1] > 9 * zeros[0] + 9 else None
    if coding is None:
        return data
    try:
        text = data.decode(coding)
    except UnicodeDecodeError:
        raise Fault(f"{path}: not a text, and not UTF-16 either") from None
    changes.add(0, "UTF-16, written as UTF-8")
    return text.removeprefix("\ufeff").encode()


def join(lines: list[bytes], changes: Changes) -> None:
    """Puts lines that end in a backslash together with the next."""
    i = 0
    while i < len(lines):
        start = i
        while lines[start].rstrip(BLANKS).endswith(b"\\") and i + 1 < len(lines) and may_go_on(lines[start]):
            i += 1
            lines[start] = lines[start].rstrip(BLANKS)[:-1] + b" " + lines[i]
            lines[i] = b""
        if i > start:
            changes.add(start + 1, "continued by a backslash, joined with the next")
        i += 1


def may_go_on(line: bytes) -> bool:
    """Whether a backslash at the end of the line continues it. In a comment, a name or a path it may be a part of it."""
    return not line.lstrip(BLANKS).startswith((b"#", b"mtllib", b"usemtl", b"newmtl"))


def statement(line: bytes) -> tuple[bytes, list[bytes], bytes]:
    """The keyword of a line, its tokens up to a comment, and all after the keyword."""
    text = line.strip(BLANKS)
    if not text or text.startswith(b"#"):
        return b"", [], b""
    tokens = [token for token in text.replace(b"\t", b" ").replace(b"\r", b" ").split(b" ") if token]
    arguments = tokens[1:]
    if b"#" in text:
        end = next((i for i, token in enumerate(arguments) if token.startswith(b"#")), len(arguments))
        arguments = arguments[:end]
    return tokens[0], arguments, text[len(tokens[0]):].strip(BLANKS)


def comment(line: bytes) -> bytes:
    return b"# " + line.lstrip(BLANKS)


def ended(line: bytes, old: bytes) -> bytes:
    """A line with the CR that the old one has at its end."""
    return line + (b"\r" if old.endswith(b"\r") else b"")


# ---- numbers


def number(token: bytes) -> tuple[bytes, str | None]:
    """A token as a number that abuf takes, apart from its range, and what was changed or None."""
    if NUMBER.fullmatch(token):
        digits, _, exponent = token.lower().partition(b"e")
        if sum(byte in b"0123456789" for byte in digits) <= 30 and len(exponent.lstrip(b"+-")) <= 3:
            return token, None
        value = Decimal(token.decode())
        return plain(value) if abs(value) < 10 ** 12 else b"%e" % value, "a number of too many digits, shortened"
    if NO_NUMBER.fullmatch(token):
        return b"0", "not a number (nan or inf), made 0"
    if token.endswith(b",") and NUMBER.fullmatch(token[:-1]):
        return number(token[:-1])[0], "a comma between the numbers, left out"
    if COMMA.fullmatch(token):
        return number(token.replace(b",", b"."))[0], "a comma for the point, made a point"
    if found := re.fullmatch(rb"(.*[0-9.])([+-]e)([0-9]+)", token):
        turned = found.group(1) + b"e" + found.group(2)[:1] + found.group(3)
        if NUMBER.fullmatch(turned):
            return turned, "an exponent whose sign stands before its e, put right"
    return b"0", "not a number, made 0"


def plain(value: Decimal) -> bytes:
    """The text of a number, to far less than a unit of 1/65536."""
    text = format(round(value, 9), "f")
    return (text.rstrip("0").rstrip(".") if "." in text else text).encode().replace(b"-0", b"0" if Decimal(text) == 0 else b"-0")


# ---- the libraries


def fix_library(lines: list[bytes], changes: Changes, unnamed: bytes, tr: str | None) -> tuple[list[bytes], set[bytes]]:
    """The fixed lines of a library, and the names of its materials."""
    out, names = list(lines), set()
    has_material, has_alpha = False, alphas(lines)
    material = -1
    for i, line in enumerate(lines):
        keyword, arguments, rest = statement(line)
        if keyword == b"newmtl":
            has_material, material = True, i
            if not rest:
                out[i] = ended(b"newmtl " + unnamed, line)
                changes.add(i + 1, f"a material without a name, called {unnamed.decode()}")
            names.add(rest or unnamed)
        elif keyword in (b"Kd", b"d"):
            if not has_material:
                out[i] = comment(line)
                changes.add(i + 1, f"{keyword.decode()} above the first newmtl, made a comment")
            else:
                out[i] = fix_value(line, keyword, arguments, changes, i + 1)
        elif keyword == b"Tr" and tr and has_material and material not in has_alpha and arguments and NUMBER.fullmatch(arguments[0]):
            alpha = Decimal(arguments[0].decode())
            out[i] = ended(b"d " + plain(1 - alpha if tr == "inverted" else alpha), line)
            changes.add(i + 1, "Tr, made d: " + ("one minus its number" if tr == "inverted" else "its number"))
    return out, names


def alphas(lines: list[bytes]) -> set[int]:
    """The places of the newmtl lines whose materials have a d."""
    found, material = set(), -1
    for i, line in enumerate(lines):
        tokens = line.split(None, 1)
        if tokens[:1] == [b"newmtl"]:
            material = i
        elif tokens[:1] == [b"d"]:
            found.add(material)
    return found


def fix_value(line: bytes, keyword: bytes, arguments: list[bytes], changes: Changes, at: int) -> bytes:
    """A line of a colour or an alpha."""
    tokens = arguments[1:] if keyword == b"d" and arguments[:1] == [b"-halo"] else list(arguments)
    if tokens != arguments:
        changes.add(at, "d -halo, without -halo")
    wanted = tokens[:1] if keyword == b"d" else tokens[:3]
    fixed = []
    for token in wanted:
        text, change = number(token)
        if change == "not a number, made 0":
            changes.add(at, f"{keyword.decode()} of something else than numbers, made a comment")
            return comment(line)
        if change is None and scene.scaled(text, scene.COLOUR) is None:
            text, change = b"1" if text[:1] != b"-" else b"0", "a number beyond all ranges, made 0 or 1"
        if change:
            changes.add(at, change)
        fixed.append(text)
    if len(fixed) != 1 and (keyword == b"d" or len(fixed) != 3):
        changes.add(at, f"{keyword.decode()} of too few numbers, made a comment")
        return comment(line)
    return line if fixed == arguments[:len(fixed)] else ended(b" ".join([keyword, *fixed]), line)


class Library:
    """A library that the model names: where it lies, its fixed lines, and whether they must be written."""

    def __init__(self, path: str, name: bytes, unnamed: bytes, tr: str | None) -> None:
        self.path, self.name = path, name
        self.changes = Changes(os.path.basename(path))
        lines = load(path, self.changes)
        self.lines, self.materials = fix_library(lines, self.changes, unnamed, tr)
        self.opaque = 0 if tr else sum(1 for line in lines if line.split(None, 1)[:1] == [b"Tr"]) if not alphas(lines) else 0


def place_of(name: bytes, folder: str) -> str | None:
    """The file that a mtllib line means, as it stands, by its last part, or in other capitals."""
    for way in (name, name.replace(b"\\", b"/"), re.split(rb"[\\/]", name)[-1]):
        path = os.path.join(os.fsencode(folder), way)
        try:
            if way and os.path.isfile(path):
                return os.fsdecode(path)
        except ValueError:
            return None
    last = os.fsdecode(re.split(rb"[\\/]", name)[-1]).lower()
    return next((os.path.join(folder, other) for other in sorted(os.listdir(folder or ".")) if other.lower() == last), None)


def names_on(rest: bytes, folder: str) -> list[bytes]:
    """The names of a mtllib line: one, or several where the parts are files and the whole is none."""
    parts = [part for part in re.split(rb"[ \t]+", rest) if part]
    if len(parts) > 1 and place_of(rest, folder) is None and all(part.lower().endswith(b".mtl") for part in parts):
        return parts
    return [rest.strip(b'"') if place_of(rest, folder) is None and rest.startswith(b'"') else rest]


# ---- the model


class Model:
    """The lines of a model, what was changed in them, and what is left."""

    def __init__(self, path: str, tr: str | None) -> None:
        self.path, self.folder, self.tr = path, os.path.dirname(path), tr
        self.changes = Changes(os.path.basename(path))
        self.lines = load(path, self.changes)
        self.points: list[int] = []  # the places of their lines
        self.faces: list[int] = []
        self.used: set[bytes] = set()  # names of materials that faces have
        self.libraries: list[Library] = []
        self.after: dict[int, list[bytes]] = {}  # lines that are put behind others
        self.named: dict[int, list[Library]] = {}  # what the mtllib lines are to name
        self.left: list[str] = []  # for which abuf refuses it
        self.unnamed = b"unnamed"
        while any(line.endswith(self.unnamed) for line in self.lines if b"usemtl" in line):
            self.unnamed += b"-2"
        self.fix_statements()
        self.fix_faces()
        self.fix_libraries()

    def fix_statements(self) -> None:
        """Fixes all lines but those of faces and libraries, and finds these."""
        self.library_lines: list[int] = []
        for i, line in enumerate(self.lines):
            if PLAIN_POINT.fullmatch(line):
                self.points.append(i)
                continue
            if line.startswith(IGNORED):
                continue
            keyword, arguments, rest = statement(line)
            if keyword == b"v":
                self.points.append(i)
                self.fix_point(i, line, arguments)
            elif keyword == b"f":
                self.faces.append(i)
            elif keyword == b"usemtl" and not rest:
                self.lines[i] = ended(b"usemtl " + self.unnamed, line)
                self.changes.add(i + 1, f"usemtl without a name, named {self.unnamed.decode()}")
            elif keyword == b"mtllib":
                self.library_lines.append(i)
            elif keyword in scene.FREE_FORMS:
                self.lines[i] = comment(line)
                self.changes.add(i + 1, "a free-form statement, made a comment")
            elif keyword and not scene.is_keyword(keyword):
                self.lines[i] = comment(line)
                self.changes.add(i + 1, "a keyword that isn't printable ASCII, made a comment")

    def fix_point(self, i: int, line: bytes, arguments: list[bytes]) -> None:
        tokens = arguments
        if len(tokens) == 1 and tokens[0].count(b",") == 2:
            tokens = tokens[0].split(b",")
            self.changes.add(i + 1, "commas between the numbers, made blanks")
        fixed, told = [], []
        for token in tokens[:3]:
            text, change = number(token)
            fixed.append(text)
            told += [change] if change else []
        if len(fixed) < 3:
            told.append("a point of fewer than three numbers, the others made 0")
            fixed += [b"0"] * (3 - len(fixed))
        for change in told:
            self.changes.add(i + 1, change)
        if fixed != arguments[:3]:
            self.lines[i] = ended(b" ".join([b"v", *fixed]), line)

    # faces

    def fix_faces(self) -> None:
        """Fixes the faces, and finds the points that they use."""
        count, more = len(self.points), 1 if self.is_counted_from_0() else 0
        self.is_used, self.triangles = bytearray(count), 0
        above, points = 0, self.points
        for i in self.faces:
            line = self.lines[i]
            if not more and PLAIN_FACE.fullmatch(line):
                corners = [int(index) - 1 for index in POINT_OF_ELEMENT.findall(line)]
                if max(corners) < count:
                    self.triangles += len(corners) - 2
                    for place in corners:
                        self.is_used[place] = 1
                    continue
            while above < count and points[above] < i:
                above += 1
            _, tokens, _ = statement(line)
            if len(tokens) < 3:
                self.lines[i] = ended(b" ".join([b"l", *tokens]), line) if tokens else comment(line)
                self.changes.add(i + 1, "a face of fewer than three corners, " + ("made an l line" if tokens else "made a comment"))
                continue
            fixed = self.fix_elements(i, tokens, above, count, more)
            self.triangles += len(fixed) - 2 if fixed else 0
            if fixed is None:
                self.lines[i] = comment(line)
            elif len(fixed) > scene.MOST_ELEMENTS:
                self.cut_face(i, fixed, line)
            elif fixed != tokens:
                self.lines[i] = ended(b" ".join([b"f", *fixed]), line)

    def is_counted_from_0(self) -> bool:
        """Whether points are counted from 0: one index is 0, and none is negative, or the number of the points or more."""
        if not any(ZERO.search(self.lines[i]) for i in self.faces):
            return False
        found = [INDEX.match(token) for i in self.faces for token in statement(self.lines[i])[1]]
        indices = [int(index.group(1)) for index in found if index]
        return min(indices) == 0 and max(indices) < len(self.points)

    def fix_elements(self, i: int, tokens: list[bytes], above: int, count: int, more: int) -> list[bytes] | None:
        """The elements of a face; None where a corner names no point."""
        fixed, corners = [], []
        for token in tokens:
            found = scene.ELEMENT.fullmatch(token)
            if found is None:
                found = INDEX.match(token)
                if found is None:
                    self.changes.add(i + 1, "a face with an element of another form, made a comment")
                    return None
                self.changes.add(i + 1, "an element of another form, of which the point is kept")
                token = found.group(1)
            index = int(found.group(1))
            if more and index >= 0:
                self.changes.add(i + 1, "points counted from 0, counted from 1 now")
                index, token = index + 1, re.sub(rb"^[+]?[0-9]+", b"%d" % (index + 1), token)
            place = index - 1 if index > 0 else above + index
            if index == 0 or not 0 <= place < count:
                self.changes.add(i + 1, "a face with a point that isn't there, made a comment")
                return None
            fixed.append(token)
            corners.append(place)
        for place in corners:
            self.is_used[place] = 1
        return fixed

    def cut_face(self, i: int, tokens: list[bytes], line: bytes) -> None:
        """Makes several faces of one, which have the same triangles: each begins with the first corner."""
        pieces, start, most = [], 1, scene.MOST_ELEMENTS - 1
        while start < len(tokens) - 1:
            pieces.append(ended(b" ".join([b"f", tokens[0], *tokens[start:start + most]]), line))
            start += most - 1
        self.lines[i] = pieces[0]
        self.after.setdefault(i, []).extend(pieces[1:])
        self.changes.add(i + 1, f"a face of more than {scene.MOST_ELEMENTS} corners, cut into {len(pieces)}")

    # places of the points

    def place_points(self, scale: Decimal, origin: tuple[Decimal, ...]) -> None:
        """Moves and scales the points as is asked for, or as is needed."""
        zero = (Decimal(0),) * 3
        far = [k for k, i in enumerate(self.points) if not PLAIN_POINT.fullmatch(self.lines[i])
               and any(scene.scaled(token, scene.LENGTH) is None for token in statement(self.lines[i])[1][:3])]
        if (scale, origin) == (1, zero):
            for k in [k for k in far if not self.is_used[k]]:
                i = self.points[k]
                self.lines[i] = ended(b"v 0 0 0", self.lines[i])
                self.changes.add(i + 1, "a point beyond 32767 that no face has, made 0 0 0")
                far.remove(k)
            if not far:
                return
            scale, origin = self.needed()
        lines = [self.points[k] for k in range(len(self.points))]
        for i in lines:
            line = self.lines[i]
            _, tokens, _ = statement(line)
            moved = [plain((Decimal(token.decode()) - away) * scale) for token, away in zip(tokens, origin)]
            if any(scene.scaled(token, scene.LENGTH) is None for token in moved):
                moved = [b"0"] * 3
                self.changes.add(i + 1, "a point that is still beyond 32767, made 0 0 0")
            self.lines[i] = ended(b" ".join([b"v", *moved, *tokens[3:]]), line)
        if origin != zero:
            self.changes.add(0, f"all points: {','.join(plain(part).decode() for part in origin)} is the origin now")
        if scale != 1:
            self.changes.add(0, f"all points: scaled by {plain(scale).decode()}")

    def needed(self) -> tuple[Decimal, tuple[Decimal, ...]]:
        """The scale and the origin by which the points that faces have come into the range."""
        low, high = [Decimal("Infinity")] * 3, [Decimal("-Infinity")] * 3
        for k, i in enumerate(self.points):
            if self.is_used[k]:
                for axis, token in enumerate(statement(self.lines[i])[1][:3]):
                    value = Decimal(token.decode())
                    low[axis], high[axis] = min(low[axis], value), max(high[axis], value)
        half = max((b - a) / 2 for a, b in zip(low, high))
        middle = tuple(Decimal(round((a + b) / 2)) for a, b in zip(low, high))
        if half < 16000:
            return Decimal(1), middle
        greatest, scale = max(abs(part) for part in (*low, *high)), Decimal(1)
        while greatest * scale > 32000:
            scale /= 10
        return scale, (Decimal(0),) * 3

    # materials

    def names_of_faces(self) -> set[bytes]:
        """The names of the materials that faces have."""
        names: set[bytes] = set()
        name, faces = None, set(self.faces)
        for i, line in enumerate(self.lines):
            if i in faces:
                if name is not None and line.lstrip(BLANKS)[:1] == b"f":
                    names.add(name)
            elif line.lstrip(BLANKS).startswith(b"usemtl"):
                keyword, _, rest = statement(line)
                name = rest if keyword == b"usemtl" else name
        return names

    def fix_libraries(self) -> None:
        """Finds the libraries, and fixes their lines in the model."""
        self.used = self.names_of_faces()
        lost: list[int] = []
        for i in self.library_lines:
            _, _, rest = statement(self.lines[i])
            names = names_on(rest, self.folder) if rest else []
            if len(names) > 1:
                self.changes.add(i + 1, f"{len(names)} libraries on one line, each on its own now")
            kept = []
            for name in names:
                path = place_of(name, self.folder)
                if path is None:
                    lost.append(i)
                    self.changes.add(i + 1, f"the library {name.decode(errors='replace')} is missing")
                else:
                    kept.append(self.take_library(path, name))
            self.named[i] = kept
            if not rest:
                self.changes.add(i + 1, "mtllib without a name, made a comment")
        missing = self.used - self.materials()
        if lost and missing:
            for other in sorted(os.listdir(self.folder or ".")):
                path = os.path.join(self.folder, other)
                if other.lower().endswith(".mtl") and not any(os.path.samefile(path, one.path) for one in self.libraries):
                    found = Library(path, os.fsencode(other), self.unnamed, self.tr)
                    if missing <= found.materials:
                        self.libraries.append(found)
                        self.named[lost[0]].append(found)
                        self.changes.add(lost[0] + 1, f"the library {other} has its materials, and is named now")
                        break

    def take_library(self, path: str, name: bytes) -> Library:
        for one in self.libraries:
            if os.path.samefile(one.path, path):
                return one
        self.libraries.append(Library(path, name, self.unnamed, self.tr))
        return self.libraries[-1]

    def materials(self) -> set[bytes]:
        return set().union(*(one.materials for one in self.libraries))

    def missing(self) -> set[bytes]:
        return self.used - self.materials()

    # what is left

    def find_left(self) -> None:
        for what, number_of, most in (("points", len(self.points), scene.MOST_POINTS), ("triangles", self.triangles, scene.MOST_TRIANGLES),
                                      ("libraries", len(self.libraries) + bool(self.missing()), scene.MOST_LIBRARIES),
                                      ("materials", len(self.materials() | self.missing()), scene.MOST_MATERIALS)):
            if number_of > most:
                self.left.append(f"{number_of} {what}, of which abuf takes {most}; the program that made the model may simplify it")
        if not self.triangles:
            self.left.append("no face has three corners, so nothing is drawn")


# ---- writing


def planned(model: Model, target: str) -> dict[str, bytes]:
    """What is to be written: the fixed model, and beside it the libraries that it needs there."""
    folder, (stem, _) = os.path.dirname(target), os.path.splitext(os.path.basename(target))
    is_same_folder = os.path.realpath(folder or ".") == os.path.realpath(model.folder or ".")
    files: dict[str, bytes] = {}
    names: dict[str, bytes] = {}  # of the libraries, by their paths
    for library in model.libraries:
        own = os.path.relpath(library.path, model.folder or ".")
        if library.changes.kinds or not is_same_folder:
            own = f"{stem}-{os.path.basename(library.path)}"
            while os.path.join(folder, own) in files:
                own = f"{os.path.splitext(own)[0]}-2.mtl"
            files[os.path.join(folder, own)] = b"\n".join(library.lines)
        names[library.path] = os.fsencode(own)
    lines = name_libraries(model, names)
    if model.missing():
        own = f"{stem}-new.mtl"
        files[os.path.join(folder, own)] = b"".join(b"newmtl %b\nKd 1 1 1\nd 1\n\n" % name for name in sorted(model.missing()))
        if lines[-1:] == [b""]:
            lines.pop()
        lines += [b"mtllib " + os.fsencode(own), b""]
    files[target] = b"\n".join(lines)
    read = [model.path, *(library.path for library in model.libraries)]
    for path in files:
        if os.path.exists(path) and any(os.path.samefile(path, one) for one in read):
            raise Fault(f"{path} is what was read; name another file")
    return files


def name_libraries(model: Model, names: dict[str, bytes]) -> list[bytes]:
    """The lines of the model, in which mtllib lines name the libraries as they are now."""
    out = []
    for i, line in enumerate(model.lines):
        if i in model.named:
            wanted = [names[one.path] for one in model.named[i]]
            _, _, rest = statement(line)
            if wanted != [rest]:
                lines = [ended(b"mtllib " + name, line) for name in wanted] or [comment(line)]
                if len(wanted) == 1 and rest not in (wanted[0], b""):
                    model.changes.add(i + 1, f"names the library {os.fsdecode(wanted[0])} now")
                out += lines
                continue
        out.append(line)
        out += model.after.get(i, [])
    return out


# ---- the program


def scale_of(value: str) -> Decimal:
    if not NUMBER.fullmatch(value.encode()) or not Decimal(value):
        raise argparse.ArgumentTypeError(f"a number other than 0, not {value}")
    return Decimal(value)


def origin_of(value: str) -> tuple[Decimal, ...]:
    parts = value.split(",")
    if len(parts) != 3 or not all(NUMBER.fullmatch(part.encode()) for part in parts):
        raise argparse.ArgumentTypeError(f"three numbers, not {value}")
    return tuple(map(Decimal, parts))


def fixed(path: str, scale: Decimal = Decimal(1), origin: tuple[Decimal, ...] = (Decimal(0),) * 3, tr: str | None = None) -> Model:
    """The model of a file, fixed."""
    model = Model(path, tr)
    model.place_points(scale, origin)
    for name in sorted(model.missing()):
        model.changes.add(0, f"the material {name.decode(errors='replace')} is in no library; a white one is written")
    model.find_left()
    return model


def main() -> int:
    parser = report.words(__doc__)
    parser.add_argument("model", metavar="MODEL.obj")
    parser.add_argument("target", metavar="FIXED.obj", nargs="?")
    parser.add_argument("--scale", type=scale_of, default=Decimal(1), metavar="S")
    parser.add_argument("--origin", type=origin_of, default=(Decimal(0),) * 3, metavar="X,Y,Z")
    parser.add_argument("--tr", choices=["inverted", "alpha"])
    parser.add_argument("--all", action="store_true", help="tell all lines of each change")
    given = parser.parse_args()
    model = fixed(given.model, given.scale, given.origin, given.tr)
    files = planned(model, given.target or os.path.splitext(given.model)[0] + "-fixed.obj")
    told = [line for changes in (model.changes, *(one.changes for one in model.libraries)) for line in changes.tell(given.all)]
    print("\n".join(told) if told else f"{os.path.basename(given.model)}: nothing to fix")
    for path, data in files.items() if given.target else ():
        with open(path, "wb") as file:
            file.write(data)
        print(f"written: {path}")
    opaque = sum(one.opaque for one in model.libraries)
    if opaque:
        print(f"fix_obj.py: {opaque} materials have Tr without d, and stay opaque; --tr inverted or --tr alpha makes d of it", file=sys.stderr)
    for line in model.left:
        print(f"fix_obj.py: {given.model}: {line}", file=sys.stderr)
    return report.WRONG if model.left else report.WELL


if __name__ == "__main__":
    report.end(main)
