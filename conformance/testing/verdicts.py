"""Why a driver's fragments differ from the exact ones, and whether it may.

Each sample that differs is put into one of these classes; the gravest is the verdict of its case.

wrong      no reading of the interface's rules covers, or leaves out, this sample
seam       two triangles on either side of a shared edge cover a sample there twice or not at all
clipped    a corner lies beyond the viewport or is no float of 32 bits; within a stated distance
precision  some rounding of the corners to the driver's subpixel bits gives what the driver gave
ties       the sample lies exactly on an edge that needs no rounding, and each shared edge is covered once
"""

from __future__ import annotations

import itertools
from collections import Counter, defaultdict
from dataclasses import asdict, dataclass, field

from testing.scenes import Place, Scene, Triangle, bits_needed, distance, distance_from, edge, is_float, is_on

FAILS = ("wrong", "seam")
VERDICTS = ("wrong", "seam", "image", "clipped", "precision", "ties")  # the gravest first
RULES = {
    "wrong": "Vulkan and OpenGL, Basic Polygon Rasterization, and Direct3D 11, Triangle Rasterization Rules: a sample "
             "inside a polygon is covered, one outside isn't.",
    "seam": "Vulkan and OpenGL, Basic Polygon Rasterization: of two polygons on either side of a common edge exactly "
            "one covers a sample on it. Direct3D 11, Top-Left Rule, says which.",
    "image": "The fragments are right and the image isn't: docs/FORMATS.md, Depth and order, Colours.",
    "clipped": "Vulkan and OpenGL, Primitive Clipping, say which volume is kept, and state no precision of the corners "
               "that clipping makes. Coordinates are floats of 32 bits.",
    "precision": "Vulkan, Limits, subPixelPrecisionBits, and OpenGL, SUBPIXEL_BITS: corners are rounded to this many "
                 "bits, at least 4. Direct3D 11, Coordinate Snapping, requires 8.",
    "ties": "Vulkan and OpenGL, Basic Polygon Rasterization, leave open which of two polygons covers a sample on their "
            "common edge. Direct3D 11, Top-Left Rule, doesn't.",
}


@dataclass(frozen=True)
class Abilities:
    """What a driver states of itself, in the units of the scene."""

    bits: int  # subpixel bits
    reach: float  # half the side of the viewport, in 1/256 pixel


@dataclass(frozen=True)
class Sample:
    """A sample that differs."""

    pixel: Place
    sample: int
    primitive: int
    what: str  # missing, extra or twice
    distance: float  # from the primitive's outline, in 1/256 pixel
    verdict: str


@dataclass
class Finding:
    """What is told of a case that differs."""

    verdict: str
    reason: str
    counts: dict[str, int] = field(default_factory=dict)  # of samples, by their class
    missing: int = 0
    extra: int = 0
    lost: list[int] = field(default_factory=list)  # primitives of which nothing is there
    worst: dict | None = None  # the sample of the gravest class that is farthest from its outline

    @property
    def status(self) -> str:
        return "Fail" if self.verdict in (*FAILS, "image") else "Warn"


# ---- fragments


class Malformed(Exception):
    """What a driver wrote isn't fragments of the scene."""


Fragments = dict[tuple[int, int, int], list[int]]  # masks by column, row and primitive


def fragments_of(text: str, scene: Scene) -> Fragments:
    """The fragments of lines `x y primitive mask`."""
    found: Fragments = defaultdict(list)
    for number, line in enumerate(text.splitlines(), 1):
        try:
            x, y, primitive, mask = map(int, line.split(" "))
        except ValueError:
            raise Malformed(f"line {number} isn't `x y primitive mask`: {line[:60]!r}") from None
        if not (0 <= x < scene.width and 0 <= y < scene.height and 0 <= primitive < len(scene.triangles)
                and 0 < mask < 2 ** scene.samples):
            raise Malformed(f"line {number} is no fragment of the scene: {line[:60]!r}")
        found[x, y, primitive].append(mask)
    return found


def times(fragments: Fragments, x: int, y: int, primitive: int, k: int) -> int:
    """How often a primitive covers a sample."""
    return sum(mask >> k & 1 for mask in fragments.get((x, y, primitive), ()))


# ---- the classes


def is_far(triangle: Triangle, abilities: Abilities) -> bool:
    """Whether a corner lies beyond the viewport, or is no float."""
    return triangle.reach > abilities.reach or not all(
        is_float(value) for corner in triangle.corners for value in corner)


def is_on_grid(triangle: Triangle, bits: int) -> bool:
    """Whether the corners need no more subpixel bits than these."""
    return all(bits_needed(value) <= bits for corner in triangle.corners for value in corner)


def step_of(bits: int) -> float:
    """Between neighbours on the driver's grid of corners, in 1/256 pixel."""
    return 2.0 ** (8 - bits)


def clipping_distance(triangle: Triangle, abilities: Abilities) -> float:
    """How far clipping and floats may move an outline: in x and in y by a step of the driver's grid, and by two
    units in the last place of a float as great as the farthest coordinate."""
    unit = 2.0 ** (triangle.reach.bit_length() - 24)
    return 2 ** 0.5 * (step_of(abilities.bits) + 2 * unit)


def neighbours(value: int, bits: int) -> list[int]:
    """The places to which a coordinate may be rounded: itself alone if it is on the grid."""
    step = 2 ** max(0, 8 - bits)
    below = value // step * step
    return [value] if below == value else [below, below + step]


def may_round_to(triangle: Triangle, s: Place, is_covered: bool, bits: int) -> bool:
    """Whether some rounding of the corners to the driver's grid, with some rule for ties, covers the sample or leaves
    it out."""
    choices = [list(itertools.product(neighbours(x, bits), neighbours(y, bits))) for x, y in triangle.corners]
    for a, b, c in itertools.product(*choices):
        sides = [edge(a, b, s), edge(b, c, s), edge(c, a, s)]
        area = edge(a, b, c)
        if area < 0:
            sides = [-side for side in sides]
        if is_covered and area and min(sides) >= 0 or not is_covered and (not area or min(sides) <= 0):
            return True
    return False


# ---- seams


class Outline:
    """A triangle's outline, and how far a driver may move it."""

    def __init__(self, triangle: Triangle, abilities: Abilities) -> None:
        xs, ys = zip(*triangle.corners)
        self.triangle, self.abilities = triangle, abilities
        self.left, self.top, self.right, self.bottom = min(xs), min(ys), max(xs), max(ys)
        self.has_area = triangle.area != 0
        self.is_far = is_far(triangle, abilities)
        self.is_on_grid = is_on_grid(triangle, abilities.bits)
        self.slack = (clipping_distance(triangle, abilities) if self.is_far
                      else 0 if self.is_on_grid else 2 ** 0.5 * step_of(abilities.bits))

    def has(self, s: Place) -> bool:
        """Whether a place lies exactly on it."""
        return (self.left <= s[0] <= self.right and self.top <= s[1] <= self.bottom
                and any(is_on(a, b, s) for a, b in self.triangle.edges))

    def class_of(self, s: Place, count: int, far: float) -> str:
        """The class of a sample that a driver covers so often, at this distance."""
        if count > 1:
            return "wrong"
        if self.is_far:
            return "clipped" if far <= self.slack else "wrong"
        if far == 0 and self.is_on_grid:
            return "ties"
        bits = self.abilities.bits
        return "precision" if may_round_to(self.triangle, s, count == 1, bits) else "wrong"


class Seams:
    """The edges that triangles share, and what a driver has to cover along them."""

    def __init__(self, scene: Scene, driver: Fragments, exact: Fragments, abilities: Abilities) -> None:
        self.scene, self.driver, self.exact = scene, driver, exact
        self.outlines = [Outline(triangle, abilities) for triangle in scene.triangles]
        self.around: dict[tuple[int, int, int], bool] = {}
        self.sides: dict[tuple[Place, Place], list[tuple[int, bool]]] = defaultdict(list)
        for n, triangle in enumerate(scene.triangles):
            if triangle.area:
                for (a, b), third in zip(triangle.edges, (2, 0, 1)):
                    if a != b:
                        ends = min(a, b), max(a, b)
                        self.sides[ends].append((n, edge(*ends, triangle.corners[third]) > 0))

    def is_inside_but_for(self, ends: tuple[Place, Place], n: int, s: Place) -> bool:
        """Whether a sample lies within a triangle as far as its other edges are concerned."""
        triangle, slack = self.scene.triangles[n], self.outlines[n].slack
        sign = 1 if triangle.area > 0 else -1
        return all(sign * edge(a, b, s) > 0 and distance_from(a, b, s) > slack
                   for a, b in triangle.edges if {a, b} != set(ends))

    def is_broken_beside(self, x: int, y: int, k: int, n: int) -> bool:
        """Whether a triangle and its neighbour along an edge near a sample don't cover it just once."""
        s = self.scene.place(x, y, k)
        for a, b in self.scene.triangles[n].edges:
            ends = min(a, b), max(a, b)
            if a == b or distance_from(a, b, s) > self.outlines[n].slack or not self.is_inside_but_for(ends, n, s):
                continue
            side = next(side for other, side in self.sides[ends] if other == n)
            for other, other_side in self.sides[ends]:
                if other_side != side and self.is_inside_but_for(ends, other, s):
                    if times(self.driver, x, y, n, k) + times(self.driver, x, y, other, k) != 1:
                        return True
        return False

    def is_broken_around(self, x: int, y: int, k: int) -> bool:
        """Whether triangles that close round a sample, which lies on their outlines, cover it more or less often than
        they must."""
        if (x, y, k) not in self.around:
            s = self.scene.place(x, y, k)
            around = [n for n, outline in enumerate(self.outlines) if outline.has_area and outline.has(s)]
            self.around[x, y, k] = self.is_closed(around, s) and (
                sum(times(self.driver, x, y, n, k) for n in around)
                != sum(times(self.exact, x, y, n, k) for n in around))
        return self.around[x, y, k]

    def is_closed(self, around: list[int], s: Place) -> bool:
        """Whether each edge through a place has as many of these triangles on one side as on the other."""
        sides: Counter = Counter()
        for n in around:
            for a, b in self.scene.triangles[n].edges:
                if is_on(a, b, s):
                    ends = min(a, b), max(a, b)
                    sides[ends] += 1 if dict(self.sides[ends])[n] else -1
        return not any(sides.values())


# ---- the finding


def samples_that_differ(scene: Scene, exact: Fragments, driver: Fragments, abilities: Abilities) -> list[Sample]:
    seams = Seams(scene, driver, exact, abilities)
    found = []
    for x, y, n in sorted(exact.keys() | driver.keys()):
        if driver.get((x, y, n)) == exact.get((x, y, n)):
            continue
        triangle = scene.triangles[n]
        for k in range(scene.samples):
            count = times(driver, x, y, n, k)
            if count == times(exact, x, y, n, k):
                continue
            s = scene.place(x, y, k)
            far = distance(triangle, s)
            verdict = seams.outlines[n].class_of(s, count, far)
            if verdict != "wrong" and (seams.is_broken_beside(x, y, k, n)
                                       or far == 0 and seams.is_broken_around(x, y, k)):
                verdict = "seam"
            what = ("missing", "extra", "twice")[min(count, 2)]
            found.append(Sample((x, y), k, n, what, far, verdict))
    return found


def counted(count: int, what: str) -> str:
    return f"{count} {what}{'s' * (count != 1)}"


def wrong_reason(samples: list[Sample], lost: list[int], far: str) -> str:
    """A sentence on samples that no rule allows."""
    parts = []
    of_lost = [sample for sample in samples if sample.primitive in lost]
    others = len(samples) - len(of_lost)
    if lost:
        what = f"primitive {lost[0]} isn't" if len(lost) == 1 else f"{len(lost)} primitives aren't"
        parts.append(f"{what} drawn at all ({counted(len(of_lost), 'sample')})")
    if twice := sum(sample.what == "twice" for sample in samples):
        parts.append(f"{counted(twice, 'sample')} covered twice by one primitive")
        others -= twice
    if others:
        parts.append(f"{counted(others, 'sample')} clearly inside or outside")
    return "; ".join(parts) + f"; {far}"


def reason_of(verdict: str, samples: list[Sample], lost: list[int], abilities: Abilities) -> str:
    """A sentence on the samples of the gravest class."""
    far = f"{max(sample.distance for sample in samples) / 256:.4g} pixel from the outline at most"
    if verdict == "wrong":
        return wrong_reason(samples, lost, far)
    return counted(len(samples), "sample") + {
        "seam": f" at a shared edge that isn't covered just once; {far}",
        "clipped": f" of triangles with a corner beyond the viewport or no float; {far}",
        "precision": f" explained by {abilities.bits} subpixel bits; {far}",
        "ties": " exactly on edges, each shared edge covered once",
    }[verdict]


def find(scene: Scene, exact: Fragments, driver: Fragments, abilities: Abilities) -> Finding | None:
    """What is to be told of a driver's fragments, or None if they cover the same samples as the exact ones."""
    samples = samples_that_differ(scene, exact, driver, abilities)
    if not samples:
        return None
    drawn = {n for _, _, n in driver}
    lost = sorted({n for _, _, n in exact if n not in drawn})
    verdict = min((sample.verdict for sample in samples), key=VERDICTS.index)
    gravest = [sample for sample in samples if sample.verdict == verdict]
    worst = max(gravest, key=lambda sample: sample.distance)
    return Finding(
        verdict, reason_of(verdict, gravest, [n for n in lost if n in {s.primitive for s in gravest}], abilities),
        dict(Counter(sample.verdict for sample in samples)),
        sum(sample.what == "missing" for sample in samples), sum(sample.what != "missing" for sample in samples),
        lost, {**asdict(worst), "corners": scene.triangles[worst.primitive].corners})
