"""Why a pixel of another renderer differs from abuf's: the likely cause.

The layers at the pixel's centre are known exactly. Each hypothesis changes them, or how they are put over the background, as a renderer
might. The one that comes nearest to the renderer's colour explains the pixel, if it comes within a unit. What no hypothesis explains is
only suspected, as the table in docs/COMPARING.md does it.
"""

import itertools
import math
from collections import Counter
from dataclasses import dataclass, field
from typing import Iterator, NamedTuple, Sequence

import agree
import reference

CAUSES = {
    "rounding": "the last unit: colours in floats, or rounded between the layers",
    "blending": "colours of 8 bits between the layers: the error grows with them",
    "ties": "the centre of the pixel lies exactly on an edge",
    "outline": "the centre lies within 1/16 pixel of an edge, and corners are rounded otherwise",
    "equals": "faces of equal depth: their order is another one, or some are lost",
    "depth": "faces of nearly equal depth changed places, or some are lost",
    "cut": "only the nearest layers are drawn",
    "unsorted": "layers are blended in the order of the file, not by their depth",
    "order": "the same layers in another order",
    "background": "the background is another one",
    "curve": "the values have a transfer curve, as sRGB has it",
    "unknown": "none of these",
}
OPAQUE = reference.Paint().alpha
WITHIN = 1  # unit of 255 by which an explanation may be off
BESIDE = 16  # 1/256 pixel: so near to an edge, corners that are rounded otherwise may decide
NEARLY = 64  # units of depth keys that are nearly equal
MOST_TOGGLED = 5  # primitives that are tried with and without
MOST_ORDERED = 5  # layers whose orders are all tried
LIMITS = (1, 2, 3, 4, 5, 8, 16, 32, 64, 100, 128, 254, 255, 256, 512, 1000, 1023, 1024)  # of layers, that renderers have
BACKGROUNDS = ((0, 0, 0), (65535, 65535, 65535))  # that renderers have by themselves
LOOKED_AT = 120  # pixels of an image that are looked into

Colour = tuple[int, ...]


class Layer(NamedTuple):
    key: int  # of its depth; a greater one is nearer
    number: int
    paint: reference.Paint


@dataclass
class Pixel:
    """What lies at the centre of a pixel."""

    background: Colour
    layers: list[Layer]  # from the farthest to the nearest
    on_edge: list[Layer] = field(default_factory=list)  # covered or not, with the centre exactly on their outline
    beside: list[Layer] = field(default_factory=list)  # with it near their outline


# ---- what lies at the centre


def outline_distance(corners: Sequence, s: tuple[int, int]) -> float:
    """How far a place lies within a triangle in positive order, in 1/256 pixel; below 0 outside, where it is only a bound."""
    a, b, c = corners
    return min(reference.edge(p, q, s) / math.dist(p[:2], q[:2]) for p, q in ((a, b), (b, c), (c, a)))


class Layers:
    """The primitives of a scene, to be asked for what lies at a place."""

    def __init__(self, job: reference.Job, primitives: Sequence[reference.Primitive]) -> None:
        self.job = job
        self.boxes = []
        for number, primitive in enumerate(primitives):
            if primitive.area:
                xs, ys = [c[0] for c in primitive.corners], [c[1] for c in primitive.corners]
                self.boxes.append((min(xs) - BESIDE, min(ys) - BESIDE, max(xs) + BESIDE, max(ys) + BESIDE, number, primitive))

    def at(self, x: int, y: int) -> Pixel:
        s = (256 * x + 128, 256 * y + 128)
        found = Pixel(tuple(self.job.background), [])
        for left, top, right, bottom, number, primitive in self.boxes:
            if not (left <= s[0] <= right and top <= s[1] <= bottom):
                continue
            distance = outline_distance(primitive.corners, s)
            if distance < -BESIDE:
                continue
            layer = Layer(reference.depth_key(primitive, s), number, primitive.paint)
            if reference.covers(primitive, s):
                found.layers.append(layer)
            if distance == 0:
                found.on_edge.append(layer)
            if distance <= BESIDE:
                found.beside.append(layer)
        found.layers.sort(key=lambda layer: layer[:2])
        return found


# ---- hypotheses


def composited(background: Colour, layers: Sequence[Layer]) -> Colour:
    """The layers over the background, as an image of MAXVAL 255 has it."""
    colour = list(background)
    for layer in layers:
        colour = [reference.over(under, k, layer.paint.alpha) for under, k in zip(colour, layer.paint.colour)]
    return tuple((2 * value + 257) // 514 for value in colour)


def toggled(pixel: Pixel, some: Sequence[Layer]) -> Iterator[Sequence[Layer]]:
    """The layers with each subset of these covered."""
    numbers = {layer.number for layer in some[:MOST_TOGGLED]}
    others = [layer for layer in pixel.layers if layer.number not in numbers]
    for count in range(len(numbers) + 1):
        for chosen in itertools.combinations(some[:MOST_TOGGLED], count):
            yield sorted([*others, *chosen], key=lambda layer: layer[:2])


def groups_of(pixel: Pixel, gap: int) -> list[tuple[int, int]]:
    """Where layers of equal depth begin and end, or of depths with no more than a gap between neighbours."""
    groups, start = [], 0
    for end in range(1, len(pixel.layers) + 1):
        if end == len(pixel.layers) or pixel.layers[end].key - pixel.layers[end - 1].key > gap:
            if end - start > 1:
                groups.append((start, end))
            start = end
    return groups


class Blend:
    """The layers over the background, to be asked what it is with some of them replaced. What lies under and over each is kept."""

    def __init__(self, pixel: Pixel) -> None:
        self.layers = pixel.layers
        self.under = [[float(part) for part in pixel.background]]
        for layer in pixel.layers:
            self.under.append(over_all(self.under[-1], [layer]))
        self.through, self.added = [1.0], [[0.0] * 3]  # of the layers from the last one on
        for layer in reversed(pixel.layers):
            share = self.through[-1] * layer.paint.alpha / OPAQUE
            self.added.append([part + share * k for part, k in zip(self.added[-1], layer.paint.colour)])
            self.through.append(self.through[-1] - share)

    def replaced(self, start: int, end: int, some: Sequence[Layer]) -> Colour:
        """The colour with other layers in place of these."""
        rest = len(self.layers) - end
        under = over_all(self.under[start], some)
        return tuple(round((self.through[rest] * part + more) / 257) for part, more in zip(under, self.added[rest]))

    def without_farthest(self, count: int) -> Colour:
        """The colour without so many of the farthest layers."""
        return self.replaced(0, count, [])


def over_all(colour: list[float], some: Sequence[Layer]) -> list[float]:
    """Layers over a colour, without rounding."""
    for layer in some:
        share = layer.paint.alpha / OPAQUE
        colour = [under + share * (k - under) for under, k in zip(colour, layer.paint.colour)]
    return colour


def regrouped(pixel: Pixel, blend: Blend, gap: int) -> Iterator[Colour]:
    """Another order of layers that are so near to each other, or some of them lost, group by group; then the same in all at once."""
    groups = groups_of(pixel, gap)
    for start, end in groups:
        group = pixel.layers[start:end][:MOST_ORDERED]
        for count in range(len(group), 0, -1):
            for chosen in itertools.permutations(group, count):
                yield blend.replaced(start, end, chosen)
    if len(groups) > 1:
        runs = [pixel.layers[start:end] for start, end in runs_of(groups, len(pixel.layers))]
        yield composited(pixel.background, [layer for run in runs for layer in reversed(run)])
        for which in (0, -1):
            yield composited(pixel.background, [run[which] for run in runs])


def runs_of(groups: Sequence[tuple[int, int]], count: int) -> list[tuple[int, int]]:
    """The groups, and each layer that is in none of them by itself."""
    within = {k for start, end in groups for k in range(start, end)}
    return sorted([*groups, *((k, k + 1) for k in range(count) if k not in within)])


def cut_short(pixel: Pixel, blend: Blend) -> Iterator[Colour]:
    """Only so many of the nearest layers."""
    for limit in LIMITS:
        if limit < len(pixel.layers):
            yield blend.without_farthest(len(pixel.layers) - limit)


def unsorted(pixel: Pixel) -> Iterator[Sequence[Layer]]:
    """In the order of the file: all of them, or those that nothing before them hides from a depth buffer."""
    in_order = sorted(pixel.layers, key=lambda layer: layer.number)
    yield in_order
    nearest, kept = -1, []
    for layer in in_order:
        if layer.key > nearest:
            nearest = layer.key
            kept.append(layer)
    yield kept


def orders_of(pixel: Pixel) -> Iterator[Sequence[Layer]]:
    """Each order of few layers."""
    if len(pixel.layers) <= MOST_ORDERED:
        yield from itertools.permutations(pixel.layers)


def merged(pixel: Pixel) -> Iterator[Colour]:
    """Of equals in each channel the greatest of what they give over the opaque ones, as blending by the maximum leaves it."""
    for start, end in groups_of(pixel, 0):
        solid = [one for one in pixel.layers[start:end] if one.paint.alpha == OPAQUE]
        clear = [one for one in pixel.layers[start:end] if one not in solid]
        tries = [composited(pixel.background, [*pixel.layers[:start], *solid, one, *pixel.layers[end:]]) for one in clear]
        if tries:
            yield tuple(map(max, zip(*tries)))


def with_curve(value: int) -> int:
    """A linear value of 255 as sRGB encodes it."""
    part = value / 255
    return round(255 * (12.92 * part if part <= 0.0031308 else 1.055 * part ** (1 / 2.4) - 0.055))


def to_8_bits(value: float) -> float:
    return round(255 * min(1.0, value)) / 255


def over_in_8_bits(colour: list[float], paint: reference.Paint) -> list[float]:
    """A layer over what a buffer of 8 bits has, with its alpha as the last value."""
    alpha = paint.alpha / 65535
    return [to_8_bits(alpha * part + (1 - alpha) * under) for part, under in zip([*(k / 65535 for k in paint.colour), 1.0], colour)]


def under_in_8_bits(colour: list[float], paint: reference.Paint) -> list[float]:
    """A layer behind what a buffer of 8 bits has."""
    rest = (1 - colour[3]) * paint.alpha / 65535
    return [to_8_bits(over + rest * part) for part, over in zip([*(k / 65535 for k in paint.colour), 1.0], colour)]


def blended_in_8_bits(pixel: Pixel) -> Iterator[Colour]:
    """From the nearest layer on, from both ends at once as dual depth peeling does it, and from the farthest on."""
    count = len(pixel.layers)
    for nearest in (count, (count + 1) // 2, 0):
        front, back = [0.0] * 4, [0.0] * 4
        for layer in pixel.layers[:count - nearest]:
            back = over_in_8_bits(back, layer.paint)
        for layer in reversed(pixel.layers[count - nearest:]):
            front = under_in_8_bits(front, layer.paint)
        seen = [to_8_bits(over + (1 - front[3]) * under) for over, under in zip(front, back)]
        yield tuple(round(255 * (part + (1 - seen[3]) * k / 65535)) for part, k in zip(seen, pixel.background))


def explanations(pixel: Pixel) -> Iterator[tuple[str, Colour]]:
    """Causes with the colours that they give, the likelier ones first: of those that come equally near, the first counts."""
    def all_of(cause: str, tries: Iterator[Sequence[Layer]]) -> Iterator[tuple[str, Colour]]:
        return ((cause, composited(pixel.background, layers)) for layers in tries)

    yield from all_of("ties", toggled(pixel, pixel.on_edge))
    blend = Blend(pixel)
    yield from (("equals", colour) for colour in regrouped(pixel, blend, 0))
    yield from (("depth", colour) for colour in regrouped(pixel, blend, NEARLY))
    yield from all_of("outline", toggled(pixel, pixel.beside))
    yield from (("equals", colour) for colour in merged(pixel))
    yield from (("blending", colour) for colour in blended_in_8_bits(pixel))
    yield from all_of("unsorted", unsorted(pixel))
    yield from (("cut", colour) for colour in cut_short(pixel, blend))
    yield from all_of("order", orders_of(pixel))
    for background in BACKGROUNDS:
        yield "background", composited(background, pixel.layers)
    yield "curve", tuple(with_curve(value) for value in composited(pixel.background, pixel.layers))


def suspected(pixel: Pixel, difference: int) -> str:
    """What nothing explains."""
    if difference <= len(pixel.layers) + 1:
        return "blending"
    if pixel.on_edge:
        return "ties"
    if groups_of(pixel, 0):
        return "equals"
    if pixel.beside:
        return "outline"
    if groups_of(pixel, NEARLY):
        return "depth"
    return "unknown"


def differ_by(one: Sequence[int], other: Sequence[int]) -> int:
    return max(abs(a - b) for a, b in zip(one, other))


def cause_of(pixel: Pixel, theirs: Sequence[int]) -> tuple[str, bool]:
    """The likely cause of another colour of MAXVAL 255, and whether it explains the colour."""
    difference = differ_by(composited(pixel.background, pixel.layers), theirs)
    if difference <= WITHIN:
        return "rounding", True
    nearest, likely = WITHIN + 1, ""
    for cause, colour in explanations(pixel):
        rest = differ_by(colour, theirs)
        if rest < nearest:
            nearest, likely = rest, cause
        if nearest == 0:
            break
    return (likely, True) if likely else (suspected(pixel, difference), False)


# ---- an image


@dataclass
class Findings:
    """The causes of an image's differences, as far as its pixels were looked into."""

    counts: Counter = field(default_factory=Counter)  # by cause, of those that were looked into
    explained: int = 0
    looked_at: int = 0

    def likely(self) -> str:
        """The cause of most of them, or nothing."""
        return self.counts.most_common(1)[0][0] if self.counts else ""


def spread(places: Sequence[int], most: int) -> list[int]:
    """At most so many of the places, evenly."""
    count = min(most, len(places))
    return [places[k * len(places) // count] for k in range(count)]


def causes_of(found: agree.Comparison, layers: Layers) -> Findings:
    """Looks into pixels of the comparison of abuf's image with another of MAXVAL 255.

    Those that differ by more than a unit are looked into first: the rest has one cause.
    """
    findings = Findings()
    places = [place for place, difference in enumerate(found.pixels) if difference > WITHIN]
    places = places or [place for place, difference in enumerate(found.pixels) if difference]
    for place in spread(places, LOOKED_AT):
        x, y = place % found.a.width, place // found.a.width
        cause, is_explained = cause_of(layers.at(x, y), found.b.at(x, y))
        findings.counts[cause] += 1
        findings.explained += is_explained
        findings.looked_at += 1
    return findings
