#!/usr/bin/env python3
"""Draws the diagrams of README.md and docs/ARCHITECTURE.md into docs/pictures, or checks that they are what it draws.

    diagrams.py [--check] [--folder FOLDER]

    diagrams.py --check

The diagrams are SVG files with colours for light and for dark pages:

    pipeline    the way of a scene, with each crate of crates.txt
    frame       the words of a frame, with the lists through them
    entry       the stages of an entry, with the word that each step changes
    tiles       a triangle's tiles, by the edge functions at all of their samples
    words       the bits of a fragment's word, and of its word in a sample
    order       the list of README's example of pick, put in order in two samples
    times       how long each renderer took for a scene, as examples/renderers/compare.py measured it

What they show is computed: fragments, keys and colours by tools/reference.py, stages by drawing into a small frame. The status is
0 where all is well, 1 where a file differs, and 2 where the sources don't have what is drawn: a crate that the table below lacks,
or another example.
"""

import json
import os
import re
import shlex
from typing import Iterable, NamedTuple

import reference
from abuflib import report
from abuflib.program import EXAMPLES, TOP
from abuflib.report import Fault, Report

PICTURES = os.path.join(TOP, "docs", "pictures")
MOST_BYTES = 30000  # that a diagram may have
WIDTH = 480  # narrow, so that a phone shows the text at three quarters of its size
EDGE = 16  # what is drawn lies between here and WIDTH - EDGE
CUT = 6  # what is left out at the left and at the right, where the border stands

# ---- colours, each for light and for dark pages

COLOURS = {
    ".page": ("fill:#ffffff;stroke:#d1d9e0", "fill:#0d1117;stroke:#3d444d"),
    "text": ("fill:#1f2328", "fill:#f0f6fc"),
    ".soft": ("fill:#59636e", "fill:#9da7b3"),
    ".line": ("stroke:#59636e", "stroke:#9da7b3"),
    ".head": ("fill:#59636e", "fill:#9da7b3"),
    ".thin": ("stroke:#d1d9e0", "stroke:#30363d"),
    ".box": ("fill:#f6f8fa;stroke:#818b98", "fill:#151b23;stroke:#6e7681"),
    ".group": ("fill:#eef1f4;stroke:#818b98", "fill:#1c232c;stroke:#6e7681"),
    ".blue": ("fill:#ddf4ff;stroke:#0969da", "fill:#0c2d4f;stroke:#4493f8"),
    ".orange": ("fill:#fff1e5;stroke:#bc4c00", "fill:#432107;stroke:#f0883e"),
    ".green": ("fill:#dafbe1;stroke:#1a7f37", "fill:#0f3319;stroke:#3fb950"),
    ".blue-line": ("stroke:#0969da", "stroke:#4493f8"),
    ".blue-head": ("fill:#0969da", "fill:#4493f8"),
    ".orange-line": ("stroke:#bc4c00", "stroke:#f0883e"),
    ".orange-head": ("fill:#bc4c00", "fill:#f0883e"),
    ".green-head": ("fill:#1a7f37", "fill:#3fb950"),
    ".band": ("fill:#0969da", "fill:#4493f8"),
    ".some": ("fill:#cbe5ff", "fill:#123a6b"),
    ".all": ("fill:#80bfff", "fill:#1c65d4"),
    ".edge": ("stroke:#bc4c00", "stroke:#f0883e"),
    ".tile": ("stroke:#59636e", "stroke:#9da7b3"),
    ".dot": ("stroke:#1f2328", "stroke:#f0f6fc"),
    ".miss": ("stroke:#818b98", "stroke:#8b949e"),
    ".swatch": ("stroke:#818b98", "stroke:#8b949e"),
    ".bit": ("fill:#1f2328", "fill:#f0f6fc"),
    ".off": ("fill:#d1d9e0", "fill:#30363d"),
    ".mark": ("fill:#ffffff;stroke:#1f2328", "fill:#ffffff;stroke:#1f2328"),
    ".on-mark": ("fill:#1f2328", "fill:#1f2328"),
}
SHAPES = """text{font:15px sans-serif}
.small{font-size:13px}
.code{font-family:monospace;font-size:13px}
.bold{font-weight:bold}
.middle{text-anchor:middle}
.end{text-anchor:end}
.line,.thin,.blue-line,.orange-line,.edge,.tile,.dot,.miss{fill:none}
.line,.blue-line,.orange-line{stroke-width:1.5}
.edge{stroke-width:2;stroke-linejoin:round}
.dot,.miss{stroke-linecap:round}
.dot{stroke-width:6}
.miss{stroke-width:4}
.band{opacity:.16}
"""


def style(used: set[str]) -> str:
    """The style sheet, with the colours that are used."""
    wanted = [(name, *colours) for name, colours in COLOURS.items() if name == "text" or name[1:] in used]
    light = "".join(f"{name}{{{colour}}}" for name, colour, _ in wanted)
    dark = "".join(f"{name}{{{colour}}}" for name, _, colour in wanted)
    shapes = [line for line in SHAPES.splitlines()
              if not line.startswith(".") or any(name in used for name in re.findall(r"\.([a-z-]+)", line.split("{")[0]))]
    return "\n".join([*shapes, light, f"@media (prefers-color-scheme:dark){{{dark}}}"])


# ---- drawing


def number(value: float) -> str:
    """A coordinate, in tenths."""
    return f"{value:.1f}".removesuffix(".0")


def escaped(text: str) -> str:
    return text.replace("&", "&amp;").replace("<", "&lt;").replace(">", "&gt;")


def hex_of(colour: Iterable[int]) -> str:
    """A colour of three channels, each 0 to 65535."""
    return "#" + "".join(f"{(255 * channel + 32767) // 65535:02x}" for channel in colour)


class Canvas:
    """The elements of one diagram, from the top downwards."""

    def __init__(self, title: str) -> None:
        self.title = title
        self.parts: list[str] = []
        self.used = {"page"}

    def put(self, name: str, kind: str, attributes: str, inner: str | None = None) -> None:
        self.used.update(kind.split())
        start = f'<{name} class="{kind}"' if kind else f"<{name}"
        self.parts.append(f"{start} {attributes}/>" if inner is None else f"{start} {attributes}>{inner}</{name}>")

    def text(self, x: float, y: float, words: str, kind: str = "") -> None:
        """A line of text; what stands between backticks is code."""
        pieces = words.split("`")
        if len(pieces) > 1:
            self.used.add("code")
        inner = "".join(f'<tspan class="code">{escaped(piece)}</tspan>' if i % 2 else escaped(piece)
                        for i, piece in enumerate(pieces) if piece)
        self.put("text", kind, f'x="{number(x)}" y="{number(y)}"', inner)

    def lines(self, x: float, y: float, lines: Iterable[str], kind: str = "small", step: int = 18) -> float:
        """Lines of text below each other; the place of the next one is answered."""
        for line in lines:
            self.text(x, y, line, kind)
            y += step
        return y

    def rect(self, x: float, y: float, w: float, h: float, kind: str, corner: int = 0) -> None:
        rounded = f' rx="{corner}"' if corner else ""
        self.put("rect", kind, f'x="{number(x)}" y="{number(y)}" width="{number(w)}" height="{number(h)}"{rounded}')

    def swatch(self, x: float, y: float, w: float, h: float, colour: Iterable[int], corner: int = 0) -> None:
        """A rectangle in a colour of the scene, which is the same on light and dark pages."""
        rounded = f' rx="{corner}"' if corner else ""
        self.put("rect", "swatch", f'x="{number(x)}" y="{number(y)}" width="{number(w)}" height="{number(h)}"{rounded} '
                 f'fill="{hex_of(colour)}"')

    def path(self, steps: str, kind: str) -> None:
        if steps:
            self.put("path", kind, f'd="{steps}"')

    def arrow(self, steps: str, x: float, y: float, way: str, colour: str = "") -> None:
        """A line that ends in an arrow head at (x, y), which points down, up or right."""
        self.path(f"{steps} {number(x)} {number(y)}", f"{colour}-line" if colour else "line")
        sides = {"down": "l-4 -8h8", "up": "l-4 8h8", "right": "l-8 -4v8"}[way]
        self.path(f"M{number(x)} {number(y)}{sides}z", f"{colour}-head" if colour else "head")

    def down(self, x: float, start: float, end: float) -> None:
        self.arrow(f"M{number(x)} {number(start)}L", x, end, "down")

    def svg(self, height: float) -> str:
        """The file. Its border is drawn half a unit within, so that it is sharp."""
        wide, tall = WIDTH - 2 * CUT, number(height)
        page = f'<rect class="page" x="{CUT + 0.5}" y=".5" width="{wide - 1}" height="{number(height - 1)}" rx="6"/>'
        return "\n".join([
            f'<svg xmlns="http://www.w3.org/2000/svg" width="{wide}" height="{tall}" viewBox="{CUT} 0 {wide} {tall}" role="img">',
            f"<title>{escaped(self.title)}</title>", f"<style>{style(self.used)}</style>", page, *self.parts, "</svg>", ""])


# ---- the way of a scene


class Box(NamedTuple):
    """A crate in the pipeline: its row, the lanes that it takes, and what it makes."""

    row: int
    lanes: str
    crate: str
    makes: str


LANES: dict[str, tuple[float, float]] = {"A": (20, 132), "B": (156, 326), "C": (338, 460)}
INPUTS = {"A": ("Words", "command line"), "B": ("Source", "the scene"), "C": ("Shelf", "libraries, path")}
WAY = [
    Box(0, "A", "abuf_cli", "the job"),
    Box(0, "BC", "abuf_io", "bytes of the source and the shelf"),
    Box(1, "BC", "abuf_text", "lines, statements, names"),
    Box(2, "B", "abuf_obj", "points and faces"),
    Box(2, "C", "abuf_mtl", "materials"),
    Box(3, "BC", "abuf_scene", "triangles with paints"),
    Box(4, "ABC", "abuf_view", "primitives, cut at the near plane, on the screen"),
    Box(5, "B", "abuf_fan", "parts of 64 triangles"),
    Box(6, "B", "abuf_raster", "fragments, by tiles"),
    Box(7, "B", "abuf_draw", "up to 64 by one claim"),
    Box(8, "B", "abuf_frame", "a list for each pixel"),
    Box(9, "B", "abuf_resolve", "sums for each pixel"),
    Box(10, "BC", "abuf_pam", "bytes of the image"),
]
WHOLE = ("abuf_top", ("all of it, from", "the words to", "an answer"))
REGION = ("abuf_picture", 5, 9)  # the rows that it runs for a region
AGAIN = [(6, "abuf_band", ("once for each", "band of rows")), (8, "abuf_sequence", ("once for each", "shot of a path"))]
INSTEAD = ("abuf_peel", ("layer by layer,", "without a frame"))  # goes from the row before the region to the one after it
ASIDE = [  # rows below
    {
        "A": ("abuf", ("main, which", "calls abuf_top")),
        "B": ("abuf_num", ("numbers and lists,", "below all others")),
        "C": ("abuf_refused", ("main, where the", "scene is refused")),
    },
    {
        "A": ("abuf_share", ("work shared", "among threads")),
        "B": ("abuf_reading_rows", ("tests of the calls", "that read and write")),
        "C": ("abuf_rows", ("tests of whole", "commands")),
    },
    {
        "A": ("abuf_watch", ("main, which calls", "the crate below")),
        "B": ("abuf_drawing_rows", ("tests of the calls", "that draw")),
        "C": ("abuf_uses", ("callers of the", "crates")),
    },
    {
        "A": ("abuf_watching", ("looks while", "others draw")),
    },
]
FLOWS = [
    ("abuf_cli", "abuf_view"), ("abuf_io", "abuf_text"), ("abuf_text", "abuf_obj"), ("abuf_text", "abuf_mtl"),
    ("abuf_obj", "abuf_scene"), ("abuf_mtl", "abuf_scene"), ("abuf_scene", "abuf_view"), ("abuf_view", "abuf_fan"),
    ("abuf_fan", "abuf_raster"), ("abuf_raster", "abuf_draw"), ("abuf_draw", "abuf_frame"), ("abuf_frame", "abuf_resolve"),
    ("abuf_resolve", "abuf_pam"),
]
TALL, GAP = 42, 15  # of a row, and between two
STEP = 17  # from a line of a box to the next
TITLE = 28  # above the first row of a region


def crates_of(text: str) -> list[str]:
    """The crates of crates.txt."""
    return re.findall(r"(?m)^(\w+):", text)


def drawn_crates() -> list[str]:
    others = [crate for _, crate, _ in AGAIN] + [crate for row in ASIDE for crate, _ in row.values()]
    return [box.crate for box in WAY] + [WHOLE[0], REGION[0], INSTEAD[0]] + others


def check_crates(text: str) -> None:
    """A Fault where the pipeline lacks a crate, or has another."""
    here, there = drawn_crates(), crates_of(text)
    if sorted(here) != sorted(there):
        odd = sorted(set(here) ^ set(there)) or sorted(crate for crate in set(here) if here.count(crate) > 1)
        raise Fault(f"crates.txt and the boxes of the pipeline differ in {', '.join(odd)}")


def span(lanes: str) -> tuple[float, float]:
    """The left end of neighbouring lanes, and their width."""
    left, right = LANES[lanes[0]][0], LANES[lanes[-1]][1]
    return left, right - left


def middle(lanes: str) -> float:
    left, wide = span(lanes)
    return left + wide / 2


def row_places(top: float) -> list[float]:
    """Where the rows begin, and where they end."""
    _, first, last = REGION
    found, y = [], top
    for row in range(max(box.row for box in WAY) + 1):
        y += (TITLE + 2) * (row == first)
        found.append(y)
        y += TALL + GAP + 12 * (row == last)
    return [*found, y]


def crate_box(canvas: Canvas, lanes: str, y: float, crate: str, makes: Iterable[str], kind: str = "box", inset: int = 0) -> None:
    left, wide = span(lanes)
    lines = list(makes)
    canvas.rect(left + inset, y, wide - 2 * inset, TALL + STEP * (len(lines) - 1), kind, 5)
    canvas.text(middle(lanes), y + 17, crate, "code bold middle")
    canvas.lines(middle(lanes), y + 34, lines, "small middle", STEP)


def end_box(canvas: Canvas, lanes: str, y: float, name: str, gives: str) -> None:
    """Where something comes from, or goes to."""
    left, wide = span(lanes)
    canvas.rect(left, y, wide, TALL, "green", 20)
    canvas.text(middle(lanes), y + 18, name, "small bold middle")
    canvas.text(middle(lanes), y + 34, gives, "small middle")


def pipeline() -> str:
    with open(os.path.join(TOP, "crates.txt"), encoding="utf-8") as file:
        check_crates(file.read())
    canvas = Canvas("What happens to a scene in the crates")
    name, first, last = REGION
    top = EDGE + TALL + GAP
    places = row_places(top + 14)
    bottom = places.pop()
    left, wide = span("B")
    canvas.rect(12, top, WIDTH - 24, bottom - top, "page", 8)
    canvas.rect(left - 4, places[first] - TITLE, wide + 8, places[last] + TALL + 8 - places[first] + TITLE, "group", 8)
    canvas.text(middle("B"), places[first] - 10, f"`{name}`: a region", "small middle")
    for lane, (end, gives) in INPUTS.items():
        end_box(canvas, lane, EDGE, end, gives)
        canvas.down(middle(lane), EDGE + TALL, places[0] - 2)

    boxes = {box.crate: box for box in WAY}
    for start, end in FLOWS:
        lanes = min(boxes[start].lanes, boxes[end].lanes, key=len)
        to = boxes[end].row
        canvas.down(middle(lanes), places[boxes[start].row] + TALL, places[to] - 2 - TITLE * (to == first))
    for box in WAY:
        if first <= box.row <= last:
            crate_box(canvas, box.lanes, places[box.row], box.crate, [box.makes], "blue", 5)
        else:
            crate_box(canvas, box.lanes, places[box.row], box.crate, [box.makes])
    for row, crate, lines in AGAIN:
        crate_box(canvas, "A", places[row] - 8, crate, lines)
        canvas.arrow(f"M{number(LANES['A'][1])} {number(places[row] + TALL / 2)}L", left - 5, places[row] + TALL / 2, "right")
    crate, lines = INSTEAD
    at = places[(first + last) // 2] - 8
    canvas.down(middle("C"), places[first - 1] + TALL, at - 2)
    crate_box(canvas, "C", at, crate, lines)
    canvas.down(middle("C"), at + TALL + STEP, places[last + 1] - 2)
    canvas.text(middle("A"), places[last + 1] - 6, WHOLE[0], "code bold middle")
    canvas.lines(middle("A"), places[last + 1] + 12, WHOLE[1], "small middle", STEP)

    canvas.down(middle("BC"), places[last + 1] + TALL, bottom + GAP - 2)
    end_box(canvas, "BC", bottom + GAP, "Sink", "each image, by one call")
    y = bottom + GAP + TALL + 16
    canvas.path(f"M{EDGE} {number(y)}H{WIDTH - EDGE}", "thin")
    for aside in ASIDE:
        y += GAP
        for lane, (crate, lines) in aside.items():
            crate_box(canvas, lane, y, crate, lines)
        y += TALL + STEP
    return canvas.svg(y + EDGE)


# ---- a frame of a few pixels and nodes

MARK = 2 ** 64 - 1


def fragment_word(prim: int, mask: int) -> int:
    return prim * 2 ** 16 + mask


def depth_word(key: int, prim: int) -> int:
    return key * 2 ** 24 + prim


class State(NamedTuple):
    """What a step leaves: the stage that the entry has then, the step, and the frame's words."""

    stage: str
    step: str
    words: list[int]


class Frame:
    """The words of a frame, and the steps that change one of them each."""

    def __init__(self, pixels: int, nodes: int) -> None:
        self.pixels, self.nodes = pixels, nodes
        self.words = [0] * (1 + pixels) + [0, MARK] * nodes

    def head(self, pixel: int) -> int:
        return 1 + pixel

    def payload(self, node: int) -> int:
        return 1 + self.pixels + 2 * node

    def next(self, node: int) -> int:
        return 2 + self.pixels + 2 * node

    def insert(self, pixel: int, payload: int) -> list[State]:
        """Draws a fragment by its steps, and answers what each leaves."""
        states = []

        def store(stage: str, step: str, place: int, word: int) -> int:
            old, self.words[place] = self.words[place], word
            states.append(State(stage, step, list(self.words)))
            return old

        n = store("Claimed" if self.words[0] < self.nodes else "Lost", "claim", 0, self.words[0] + 1)
        if n < self.nodes:
            store("Filled", "fill", self.payload(n), payload)
            old = store("Swapped", "swap", self.head(pixel), n + 1)
            store("Linked", "link", self.next(n), old)
        return states

    def list_of(self, pixel: int) -> list[int]:
        """The nodes of the pixel's list, the newest first."""
        found, at = [], self.words[self.head(pixel)]
        while at:
            found.append(at - 1)
            at = self.words[self.next(at - 1)]
        return found


PIXELS, NODES = 4, 6
# The fragments as threads claim their numbers: pixel, primitive and mask.
DRAWN = [(1, 0, 15), (2, 0, 3), (1, 2, 12), (1, 1, 15), (2, 1, 12)]
LIST_COLOURS = {1: "blue", 2: "orange"}


def word_text(word: int) -> str:
    return "mark" if word == MARK else str(word)


def head_middle(pixel: int) -> float:
    return EDGE + 114 * pixel + 51


def node_middle(node: int) -> float:
    return EDGE + 76 * node + 34


def draw_node(canvas: Canvas, frame: Frame, node: int, y: float, owner: int | None) -> None:
    """A node in the colour of the list of its pixel; the payload stands above the next."""
    x, colour = node_middle(node), "box" if owner is None else LIST_COLOURS[owner]
    payload, following = frame.words[frame.payload(node)], frame.words[frame.next(node)]
    canvas.text(x, y - 24, f"node {node}", "small middle")
    canvas.text(x, y - 7, f"{frame.payload(node)}, {frame.next(node)}", "small soft middle")
    canvas.rect(x - 34, y, 68, 92, colour, 4)
    canvas.text(x, y + 20, str(payload), "code middle")
    told = ["isn't", "claimed"] if owner is None else [f"prim {payload >> 16}", f"mask {payload & 0xffff}"]
    canvas.lines(x, y + 38, told, "small middle", STEP)
    canvas.path(f"M{number(x - 34)} {number(y + 64)}h68", "line" if owner is None else f"{colour}-line")
    canvas.text(x, y + 83, word_text(following), "code middle")


def draw_list(canvas: Canvas, frame: Frame, pixel: int, heads: float, nodes: float) -> None:
    """The arrows from a head along the nexts."""
    colour, chain = LIST_COLOURS[pixel], frame.list_of(pixel)
    x, end = head_middle(pixel), node_middle(chain[0])
    curve = f"M{number(x)} {number(heads)}C{number(x)} {number(heads + 38)} {number(end)} {number(nodes - 86)}"
    canvas.arrow(curve, end, nodes - 40, "down", colour)
    below = nodes + 92
    for one, other in zip(chain, chain[1:]):
        x, end, depth = node_middle(one) - 12, node_middle(other) + 12, below + 26 + 18 * (one - other)
        curve = f"M{number(x)} {number(below)}C{number(x)} {number(depth)} {number(end)} {number(depth)}"
        canvas.arrow(curve, end, below + 3, "up", colour)


def frame() -> str:
    drawn = Frame(PIXELS, NODES)
    canvas = Canvas(f"The words of a frame of {PIXELS} pixels and {NODES} nodes")
    for pixel, prim, mask in DRAWN:
        drawn.insert(pixel, fragment_word(prim, mask))
    count = drawn.words[0]

    canvas.text(EDGE, 34, "Counter", "bold")
    canvas.text(92, 34, "word 0", "small soft")
    canvas.rect(EDGE, 44, 102, 32, "box", 4)
    canvas.text(EDGE + 51, 65, str(count), "code middle")
    canvas.lines(134, 56, [f"the numbers 0 to {count - 1} are claimed,", f"so the next claim gives {count}"], "small")

    heads, nodes = 140, 272
    canvas.text(EDGE, heads - 28, "Heads", "bold")
    told = f"words {drawn.head(0)} to {drawn.head(PIXELS - 1)}: 0 for none, n + 1 for node n"
    canvas.text(92, heads - 28, told, "small soft")
    for pixel in range(PIXELS):
        canvas.text(head_middle(pixel), heads - 5, f"pixel {pixel}", "small middle")
        canvas.rect(head_middle(pixel) - 51, heads, 102, 32, LIST_COLOURS.get(pixel, "box"), 4)
        canvas.text(head_middle(pixel), heads + 21, word_text(drawn.words[drawn.head(pixel)]), "code middle")

    canvas.text(EDGE, nodes - 58, "Nodes", "bold")
    owners = {node: pixel for pixel in range(PIXELS) for node in drawn.list_of(pixel)}
    for node in range(NODES):
        draw_node(canvas, drawn, node, nodes, owners.get(node))
    for pixel in LIST_COLOURS:
        draw_list(canvas, drawn, pixel, heads + 32, nodes)
    y = canvas.lines(EDGE, nodes + 184, [
        "A node has a payload, which is the word of a fragment, and a",
        "next: 0 at the end of a list, n + 1 where node n follows, and the",
        "mark, 2^64 - 1, until the node is linked. The numbers above it",
        "are the places of its two words."], "small", 19)
    return canvas.svg(y)


# ---- the life of an entry


FIRST, COLUMN = 132, 84  # where the first column of words begins, and from one to the next


def column_middle(i: int) -> float:
    return FIRST + COLUMN * i + (COLUMN - 6) / 2


def stage_row(canvas: Canvas, y: float, stage: str, words: list[int], changed: int | None, kind: str) -> None:
    """A stage with words of the frame, of which one has changed."""
    canvas.rect(EDGE, y, 96, 34, kind, 17)
    canvas.text(EDGE + 48, y + 22, stage, "small bold middle")
    words_row(canvas, y, words, changed)


def words_row(canvas: Canvas, y: float, words: list[int], changed: int | None) -> None:
    for i, word in enumerate(words):
        canvas.rect(FIRST + COLUMN * i, y, COLUMN - 6, 34, "orange" if i == changed else "box", 4)
        canvas.text(column_middle(i), y + 22, word_text(word), "code bold middle" if i == changed else "code middle")


def entry() -> str:
    canvas = Canvas("The stages of an entry, and the words of the frame after each step")
    drawn = Frame(PIXELS, NODES)
    for pixel, prim, mask in DRAWN[:-1]:
        drawn.insert(pixel, fragment_word(prim, mask))
    pixel, prim, mask = DRAWN[-1]
    last = list(drawn.words)
    n, old = last[0], last[drawn.head(pixel)]
    places = [0, drawn.head(pixel), drawn.payload(n), drawn.next(n)]
    steps = {
        "claim": f"adds 1 to the counter, which gives the number {n}",
        "fill": f"stores the payload: primitive {prim}, mask {mask}",
        "swap": f"swaps {n + 1} into the head, and gets the old head, {old}",
        "link": "stores the old head as the next",
    }
    remarks = {"Swapped": "The list has the node; a walk stops at the mark.", "Linked": f"A walk goes on to node {old - 1}."}

    columns = [("counter", "of the frame"), ("head", f"of pixel {pixel}"), ("payload", f"of node {n}"), ("next", f"of node {n}")]
    for i, (name, owner) in enumerate(columns):
        canvas.text(column_middle(i), 34, name, "small bold middle")
        canvas.text(column_middle(i), 51, owner, "small soft middle")
        canvas.text(column_middle(i), 68, f"word {places[i]}", "small soft middle")
    y: float = 78
    canvas.text(EDGE, y + 22, "before", "small soft")
    words_row(canvas, y, [last[place] for place in places], None)
    start = y + 34
    for state in drawn.insert(pixel, fragment_word(prim, mask)):
        y += 34
        changed = [i for i, place in enumerate(places) if state.words[place] != last[place]]
        canvas.text(EDGE + 60, y + 25, state.step, "small bold")
        canvas.text(FIRST, y + 25, steps[state.step], "small")
        y += 40
        canvas.down(EDGE + 48, start, y - 2)
        stage_row(canvas, y, state.stage, [state.words[place] for place in places], changed[0],
                  "green" if state.stage == "Linked" else "blue")
        start, last = y + 34, state.words
        if state.stage in remarks:
            canvas.text(FIRST, y + 54, remarks[state.stage], "small soft")
            y += 20

    while drawn.words[0] < NODES:
        drawn.insert(pixel, fragment_word(prim, mask))
    y += 54
    canvas.path(f"M{EDGE} {number(y)}H{WIDTH - EDGE}", "thin")
    canvas.text(EDGE, y + 26, f"A claim that gives the number {drawn.words[0]}, where the frame has {NODES} nodes:", "small")
    y += 40
    lost, = drawn.insert(pixel, fragment_word(prim, mask))
    stage_row(canvas, y, lost.stage, [lost.words[0]], 0, "box")
    canvas.lines(FIRST + COLUMN + 6, y + 14, ["No other word changes. The", "fragment is counted, not kept."], "small")
    return canvas.svg(y + 34 + EDGE)


# ---- the tiles of a triangle

Place = tuple[int, int]
CORNERS = ((460, 700), (10290, 2370), (3890, 8330))  # in 1/256 pixel
SAMPLES = 4
SIDE = 8  # pixels of a tile


class Span(NamedTuple):
    """Pixels: a tile, or the box around a triangle."""

    x: int
    y: int
    w: int
    h: int


def edge_value(a: Place, b: Place, s: Place) -> int:
    """The edge function, less 1 unless the edge is a left or a top edge: it isn't below 0 where the edge accepts the sample."""
    is_left, is_top = b[1] < a[1], b[1] == a[1] and b[0] > a[0]
    value: int = reference.edge(a, b, s)
    return value - (not (is_left or is_top))


def edges() -> list[tuple[Place, Place]]:
    a, b, c = CORNERS
    if reference.edge(a, b, c) < 0:
        b, c = c, b
    return [(a, b), (b, c), (c, a)]


def samples_of(x: int, y: int) -> list[Place]:
    return [(256 * x + 128 + 16 * right, 256 * y + 128 + 16 * down) for right, down in reference.OFFSETS[SAMPLES]]


def case(places: Iterable[Place]) -> str:
    """What the edge functions tell of all samples of a tile or of a pixel."""
    all_places = list(places)
    values = [[edge_value(a, b, s) for s in all_places] for a, b in edges()]
    if any(max(of_edge) < 0 for of_edge in values):
        return "nothing"
    return "everything" if all(min(of_edge) >= 0 for of_edge in values) else "open"


def mask_at(x: int, y: int) -> int:
    """The samples of a pixel that all three edges accept."""
    return sum(2 ** k for k, s in enumerate(samples_of(x, y)) if all(edge_value(a, b, s) >= 0 for a, b in edges()))


def box_around() -> Span:
    """The pixels around the corners, widened by the reach of the pattern."""
    reach = 16 * max(abs(part) for offset in reference.OFFSETS[SAMPLES] for part in offset)
    ends = [((min(along) + 127 - reach) // 256, (max(along) + 128 + reach) // 256) for along in zip(*CORNERS)]
    (left, right), (top, bottom) = ends
    return Span(left, top, right - left, bottom - top)


def tiles_of(box: Span) -> list[Span]:
    return [Span(x, y, min(SIDE, box.x + box.w - x), min(SIDE, box.y + box.h - y))
            for y in range(box.y, box.y + box.h, SIDE) for x in range(box.x, box.x + box.w, SIDE)]


def pixels_of(span: Span) -> list[Place]:
    return [(x, y) for y in range(span.y, span.y + span.h) for x in range(span.x, span.x + span.w)]


def tile_case(tile: Span) -> str:
    return case(s for x, y in pixels_of(tile) for s in samples_of(x, y))


def runs(pixels: Iterable[Place]) -> list[Span]:
    """The pixels as runs of rows."""
    found: list[Span] = []
    for x, y in sorted(pixels, key=lambda pixel: (pixel[1], pixel[0])):
        if found and found[-1].y == y and found[-1].x + found[-1].w == x:
            found[-1] = found[-1]._replace(w=found[-1].w + 1)
        else:
            found.append(Span(x, y, 1, 1))
    return found


class Grid(NamedTuple):
    """Where pixels are drawn: the place of pixel (0, 0), and how wide a pixel is."""

    left: float
    top: float
    scale: int

    def place(self, x: float, y: float) -> str:
        return f"{number(self.left + self.scale * x)} {number(self.top + self.scale * y)}"

    def blocks(self, spans: Iterable[Span]) -> str:
        return "".join(f"M{self.place(span.x, span.y)}h{self.scale * span.w}v{self.scale * span.h}h{-self.scale * span.w}z"
                       for span in spans)

    def rulings(self, tile: Span) -> str:
        """The lines between the pixels of a tile."""
        return "".join([f"M{self.place(x, tile.y)}v{self.scale * tile.h}" for x in range(tile.x + 1, tile.x + tile.w)]
                       + [f"M{self.place(tile.x, y)}h{self.scale * tile.w}" for y in range(tile.y + 1, tile.y + tile.h)])

    def outline(self) -> str:
        """The triangle."""
        return "M" + "L".join(self.place(x / 256, y / 256) for x, y in CORNERS) + "z"

    def dots(self, places: Iterable[Place]) -> str:
        return "".join(f"M{self.place(x / 256, y / 256)}h0" for x, y in places)


def draw_pixels(canvas: Canvas, grid: Grid, tile: Span) -> None:
    """The pixels of a stepped tile, in the colours of their cases."""
    for name, kind in (("everything", "all"), ("open", "some")):
        canvas.path(grid.blocks(runs(pixel for pixel in pixels_of(tile) if case(samples_of(*pixel)) == name)), kind)
    canvas.path(grid.rulings(tile), "thin")


def tiles() -> str:
    canvas = Canvas("The tiles of a triangle: nothing, everything, and stepped from pixel to pixel")
    box = box_around()
    grid = Grid((WIDTH - 11 * box.w) / 2 - 11 * box.x, EDGE - 11 * box.y, 11)
    cases = {tile: tile_case(tile) for tile in tiles_of(box)}
    by_case = {name: [tile for tile in cases if cases[tile] == name] for name in ("nothing", "everything", "open")}
    canvas.path(grid.blocks(by_case["everything"]), "all")
    for tile in by_case["open"]:
        draw_pixels(canvas, grid, tile)
    canvas.path(grid.blocks(cases), "tile")
    canvas.path(grid.outline(), "edge")
    for name, kind in (("nothing", "small soft middle"), ("everything", "small bold middle")):
        for tile in by_case[name]:
            x, y = tile.x + tile.w / 2, tile.y + tile.h / 2
            canvas.text(grid.left + grid.scale * x, grid.top + grid.scale * y + 4, name, kind)

    nothing, everything, stepped = (len(of_case) for of_case in by_case.values())
    fragments = sum(mask_at(*pixel) > 0 for pixel in pixels_of(box))
    y = canvas.lines(EDGE, grid.top + grid.scale * (box.y + box.h) + 24, [
        f"Of {len(cases)} tiles {nothing} have nothing, {everything} have everything, and {stepped} are stepped.",
        f"The triangle has {fragments} fragments, with {SAMPLES} samples a pixel."], "small", 19)
    side = draw_enlarged(canvas, y + 20, tiles_of(box)[0])
    draw_key(canvas, EDGE + side + 18, y + 32)
    return canvas.svg(y + 20 + side + EDGE)


def draw_enlarged(canvas: Canvas, top: float, tile: Span) -> float:
    """A stepped tile with the samples that are tested; its side is answered."""
    scale = 25
    grid = Grid(EDGE - scale * tile.x, top - scale * tile.y, scale)
    draw_pixels(canvas, grid, tile)
    canvas.path(grid.blocks([tile]), "tile")
    canvas.put("clipPath", "", 'id="tile"', f'<path d="{grid.blocks([tile])}"/>')
    canvas.put("path", "edge", f'd="{grid.outline()}" clip-path="url(#tile)"')
    tested = [(mask_at(*pixel) >> k & 1, s) for pixel in pixels_of(tile) if case(samples_of(*pixel)) == "open"
              for k, s in enumerate(samples_of(*pixel))]
    for kind, bit in (("miss", 0), ("dot", 1)):
        canvas.path(grid.dots(s for is_covered, s in tested if is_covered == bit), kind)
    return scale * SIDE


def draw_key(canvas: Canvas, x: float, y: float) -> None:
    """What the colours and the dots of the enlarged tile say."""
    canvas.text(x, y, "The tile at the top left", "small bold")
    y += 26
    for kind, lines in (("all", ["the edges accept all:", f"mask {2 ** SAMPLES - 1}"]),
                        ("page", ["an edge accepts nothing:", "no fragment"]),
                        ("some", ["left open, and tested", "sample by sample"]),
                        ("dot", ["a sample that is covered"]),
                        ("miss", ["a sample that isn't"])):
        if kind in ("dot", "miss"):
            canvas.path(f"M{number(x + 7)} {number(y - 4)}h0", kind)
        else:
            canvas.rect(x, y - 11, 14, 14, kind)
            canvas.rect(x, y - 11, 14, 14, "tile")
        y = canvas.lines(x + 22, y, lines, "small", STEP) + 7


# ---- the example of pick

PICKED = re.compile(r"(?m)^\$ \.\./abuf (pick [^<\n]*) < (\w+\.obj)\n((?:.+\n)+?)```")


class Example(NamedTuple):
    """README's example of pick, computed anew."""

    pixel: Place
    samples: list[list[tuple[int, int]]]  # for each sample the keys and primitives that cover it, the farthest first
    primitives: list[reference.Primitive]
    background: tuple[int, int, int]
    report: str

    def masks(self) -> dict[int, int]:
        found: dict[int, int] = {}
        for k, covering in enumerate(self.samples):
            for _, prim in covering:
                found[prim] = found.get(prim, 0) + 2 ** k
        return found

    def colours(self, k: int) -> list[tuple[int, ...]]:
        """The colour of a sample: the background, and what it is once each primitive is laid over it."""
        found: list[tuple[int, ...]] = [self.background]
        for _, prim in self.samples[k]:
            paint = self.primitives[prim].paint
            found.append(tuple(reference.over(under, colour, paint.alpha) for under, colour in zip(found[-1], paint.colour)))
        return found


def example() -> Example:
    with open(os.path.join(TOP, "README.md"), encoding="utf-8") as file:
        found = PICKED.search(file.read())
    if found is None:
        raise Fault("README.md has no example of pick")
    command, scene, shown = found.groups()

    def read(name: str) -> bytes:
        with open(os.path.join(EXAMPLES, name), "rb") as file:
            return file.read()

    job = reference.job_of(shlex.split(command))
    obj = reference.read_obj(read(scene))
    materials: dict[bytes, reference.Paint] = {}
    for place, library in enumerate(obj.libraries, 1):
        reference.read_mtl(read(library.decode()), place, materials)
    primitives = reference.primitives_of(job, reference.triangles_of(obj, materials))
    samples = [reference.covering(primitives, s) for s in reference.samples_of(job, *job.at)]
    text = reference.report_of(samples).decode()
    if text != shown:
        raise Fault("README.md's example of pick has other numbers than tools/reference.py")
    # The scene is drawn over the background of its picture.
    background = re.search(r"(?m)^# abuf render .*--background (\S+)", read(scene).decode())
    if background is not None:
        job = reference.job_of([*shlex.split(command), "--background", background.group(1)])
    red, green, blue = job.background
    return Example(job.at, samples, primitives, (red, green, blue), text)


BIT = 7  # the width of a bit


class Field(NamedTuple):
    """Neighbouring bits of a word: how many they are, what they say, and their colour."""

    bits: int
    says: str
    kind: str


FRAGMENT_FIELDS = [Field(24, "0", "box"), Field(24, "primitive, 24 bits", "blue"), Field(16, "mask, 16 bits", "orange")]
SAMPLE_FIELDS = [Field(16, "0", "box"), Field(24, "depth key, 24 bits", "green"), Field(24, "primitive, 24 bits", "blue")]


def bar(canvas: Canvas, y: float, fields: list[Field], word: int) -> None:
    """A word of 64 bits, from the highest, and under it the bits of an example."""
    bit = 64
    for field in fields:
        x, w = EDGE + BIT * (64 - bit), BIT * field.bits
        canvas.rect(x, y, w, 32, field.kind)
        canvas.text(x + w / 2, y + 21, field.says, "small middle")
        canvas.text(x + 3, y - 5, str(bit - 1), "small soft")
        bit -= field.bits
        canvas.text(x + w - 3, y - 5, str(bit), "small soft end")
    for kind, value in (("bit", 1), ("off", 0)):
        places = [EDGE + BIT * (63 - k) + 1 for k in range(64) if word >> k & 1 == value]
        canvas.path("".join(f"M{x} {number(y + 37)}h5v8h-5z" for x in places), kind)


def words() -> str:
    canvas = Canvas("The bits of the word of a fragment, and of its word in a sample")
    shown = example()
    k = 0
    key, prim = shown.samples[k][-1]
    mask = shown.masks()[prim]
    one, other = fragment_word(prim, mask), depth_word(key, prim)

    canvas.text(EDGE, 34, "The word of a fragment", "bold")
    canvas.text(WIDTH - EDGE, 34, "prim·2^16 + mask", "code end")
    canvas.lines(EDGE, 57, ["A frame keeps it as a payload. Bit k of the mask is set where the",
                            "fragment has sample k. Words ascend with the primitive number."], "small", 19)
    first, second = 112, 286
    left, right = EDGE + BIT * 24, EDGE + BIT * 40
    canvas.path(f"M{left} {first + 32}H{right}L{WIDTH - EDGE} {second}H{right}z", "band")
    bar(canvas, first, FRAGMENT_FIELDS, one)
    canvas.lines(EDGE, first + 66, [f"`{one}`:", f"primitive {prim}, mask {mask}"], "small", 18)
    canvas.text(EDGE, second - 50, "Its word in a sample", "bold")
    canvas.text(EDGE, second - 28, "key·2^24 + prim", "code")
    bar(canvas, second, SAMPLE_FIELDS, other)
    y = canvas.lines(EDGE, second + 66, [f"`{other}`: key {key}, primitive {prim}, in sample {k}"], "small", 24)
    y = canvas.lines(EDGE, y, ["Ascending words go from the farthest to the nearest. Of equal",
                               "keys the lower number is beneath."], "small", 19)
    return canvas.svg(y + 2)


def plane(prim: reference.Primitive) -> tuple[int, int, int, int]:
    """The depth of a primitive at (x, y) before it is rounded, as (u·x + v·y + w) / area."""
    a, b, c = prim.corners

    def at(x: int, y: int) -> int:
        s = (x, y)
        total: int = reference.edge(b, c, s) * a[2] + reference.edge(c, a, s) * b[2] + reference.edge(a, b, s) * c[2]
        return total

    w = at(0, 0)
    return at(1, 0) - w, at(0, 1) - w, w, prim.area


Polygon = list[tuple[float, float]]


def nearer_part(one: reference.Primitive, other: reference.Primitive, corners: Polygon) -> Polygon:
    """The part of a convex polygon in which the one primitive is nearer than the other."""
    (u, v, w, area), (p, q, r, size) = plane(one), plane(other)

    def lead(place: tuple[float, float]) -> float:
        return (u * size - p * area) * place[0] + (v * size - q * area) * place[1] + (w * size - r * area)

    found = []
    for start, end in zip(corners, corners[1:] + corners[:1]):
        before, after = lead(start), lead(end)
        if before >= 0:
            found.append(start)
        if before * after < 0:
            share = before / (before - after)
            found.append((start[0] + share * (end[0] - start[0]), start[1] + share * (end[1] - start[1])))
    return found


def order_samples(shown: Example) -> tuple[int, int]:
    """Two samples of the pixel in which the order differs."""
    orders = [[prim for _, prim in covering] for covering in shown.samples]
    for k in range(1, len(orders) - 1):
        if orders[k] != orders[k + 1]:
            return k, k + 1
    raise Fault("README.md's example of pick has one order in all samples")


def draw_card(canvas: Canvas, x: float, y: float, w: float, shown: Example, prim: int, told: str, word: int) -> None:
    """A word, with what it stands for and the colour of its primitive."""
    canvas.rect(x, y, w, 44, "box", 4)
    canvas.swatch(x + 8, y + 8, 14, 28, shown.primitives[prim].paint.colour, 2)
    canvas.text(x + 32, y + 19, told, "small")
    canvas.text(x + 32, y + 36, str(word), "code soft")


def draw_pixel(canvas: Canvas, x: float, y: float, side: float, shown: Example, listed: list[int]) -> None:
    """The pixel, with what is nearest where, and its samples."""
    column, row = shown.pixel
    square = [(256.0 * (column + right), 256.0 * (row + down)) for right, down in ((0, 0), (1, 0), (1, 1), (0, 1))]
    topmost = {covering[-1][1]: shown.colours(k)[-1] for k, covering in enumerate(shown.samples)}
    one, other = listed
    part = nearer_part(shown.primitives[one], shown.primitives[other], square)
    steps = "L".join(f"{number(x + side * (right / 256 - column))} {number(y + side * (down / 256 - row))}"
                     for right, down in part)
    canvas.swatch(x, y, side, side, topmost[other])
    canvas.put("path", "", f'd="M{steps}z" fill="{hex_of(topmost[one])}"')
    for k, (right, down) in enumerate(reference.OFFSETS[len(shown.samples)]):
        at_x, at_y = x + side * (8 + right) / 16, y + side * (8 + down) / 16
        canvas.put("circle", "mark", f'cx="{number(at_x)}" cy="{number(at_y)}" r="11"')
        canvas.text(at_x, at_y + 5, str(k), "small on-mark middle")


def draw_sample(canvas: Canvas, x: float, y: float, w: float, shown: Example, k: int, listed: list[int]) -> float:
    """The words of a sample as they are listed and in order, and its colour; the end is answered."""
    keys = {prim: key for key, prim in shown.samples[k]}

    def cards(prims: list[int]) -> None:
        nonlocal y
        for prim in prims:
            draw_card(canvas, x, y, w, shown, prim, f"prim {prim}, key {keys[prim]}", depth_word(keys[prim], prim))
            y += 52

    canvas.text(x, y, f"Sample {k}", "bold")
    canvas.text(x + w, y, "as listed", "small soft end")
    y += 12
    before, after = [prim for prim in listed if prim in keys], [prim for _, prim in shown.samples[k]]
    cards(before)
    canvas.down(x + 15, y - 8, y + 32)
    canvas.text(x + 32, y + 13, "sorted: as they were" if before == after else "sorted: exchanged", "small")
    y += 34
    cards(after)
    y += 16
    canvas.text(x, y, "laid over the background", "small")
    y += 10
    colours = shown.colours(k)
    side = (w - 24 * (len(colours) - 1)) / len(colours)
    for place, colour in enumerate(colours):
        at = x + (side + 24) * place
        canvas.swatch(at, y, side, 34, colour, 3)
        if place:
            canvas.arrow(f"M{number(at - 22)} {number(y + 17)}L", at - 2, y + 17, "right")
    return y + 34


def order() -> str:
    canvas = Canvas("The list of a pixel, put in order in two samples")
    shown = example()
    masks = shown.masks()
    listed = sorted(masks, reverse=True)  # as one thread leaves it, the newest first
    canvas.text(EDGE, 34, f"Pixel ({shown.pixel[0]}, {shown.pixel[1]})", "bold")
    draw_pixel(canvas, EDGE, 46, 176, shown, listed)

    x, y = 232, 70
    canvas.text(x, 34, "Its list, newest first", "bold")
    canvas.text(x + 20, y - 16, "head", "small soft middle")
    for prim in listed:
        canvas.down(x + 20, y - 12, y - 1)
        word = fragment_word(prim, masks[prim])
        draw_card(canvas, x, y, WIDTH - EDGE - x, shown, prim, f"primitive {prim}, mask {masks[prim]}", word)
        y += 60
    canvas.lines(x, y + 10, ["Threads decide which fragment", "came first."], "small soft", 18)

    canvas.path(f"M{EDGE} 240H{WIDTH - EDGE}", "thin")
    w = (WIDTH - 2 * EDGE - 24) / 2
    ends = [draw_sample(canvas, at, 268, w, shown, k, listed) for at, k in zip((EDGE, EDGE + w + 24), order_samples(shown))]
    return canvas.svg(max(ends) + EDGE)


# ---- the files

# ---- how long renderers take

MEASURED = os.path.join(EXAMPLES, "renderers", "measured.json")
TIMED = "demo-1000"
BARS = (118, 400)  # from no time to the longest


class Times(NamedTuple):
    """How many seconds a renderer took, on one thread and on all."""

    name: str
    alone: float
    shared: float


def times_measured() -> tuple[list[Times], int]:
    """The times of each renderer that drew the scene, the quickest first, and the number of threads."""
    with open(MEASURED, encoding="utf-8") as file:
        results = json.load(file)
    scene = next((scene for scene in results["scenes"] if scene["name"] == TIMED), None)
    if scene is None:
        raise Fault(f"{MEASURED} has no scene {TIMED}")
    one, *_, all_threads = map(str, sorted(results["threads"]))
    found = []
    for key, told in next(iter(scene["orders"].values()))["results"].items():
        name, _, way = results["renderers"].get(key, {"name": key})["name"].partition(", ")
        if told.get("times"):
            found.append(Times(f"{name}, lists" if "lists" in way else name, *(told["times"][n]["seconds"] for n in (one, all_threads))))
    return sorted(found, key=lambda it: it.alone), int(all_threads)


def seconds_text(seconds: float) -> str:
    return f"{seconds:.2f} s" if seconds < 9.95 else f"{seconds:.0f} s"


def times() -> str:
    canvas = Canvas("How long each renderer takes for a thousand large triangles")
    measured, threads = times_measured()
    left, right = BARS
    longest = max(it.alone for it in measured)
    y = 34.0
    canvas.text(EDGE, y, "A thousand large films of glass, 640x480", "bold")
    y += 24
    for x, kind, told in ((EDGE, "all", "1 thread"), (EDGE + 100, "some", f"{threads} threads")):
        canvas.rect(x, y - 11, 24, 13, kind)
        canvas.text(x + 32, y, told, "small soft")
    y += 18
    for it in measured:
        canvas.text(EDGE, y + 20, it.name, "bold" if it is measured[0] else "")
        for seconds, kind, at in ((it.alone, "all", y), (it.shared, "some", y + 15)):
            w = max(2.0, (right - left) * seconds / longest)
            canvas.rect(left, at, w, 13, kind)
            canvas.text(left + w + 6, at + 11, seconds_text(seconds), "small soft")
        y += 42
    return canvas.svg(y + 4)


DIAGRAMS = {"pipeline": pipeline, "frame": frame, "entry": entry, "tiles": tiles, "words": words, "order": order, "times": times}


def path_of(folder: str, name: str) -> str:
    return os.path.join(folder, f"{name}.svg")


def check(told: Report, folder: str, name: str) -> None:
    """Whether the file is what is drawn."""
    try:
        with open(path_of(folder, name), encoding="utf-8") as file:
            fault = None if file.read() == DIAGRAMS[name]() else "isn't what diagrams.py draws"
    except FileNotFoundError:
        fault = "isn't there"
    told.add(f"{name}.svg", fault)


def main() -> int:
    parser = report.words(__doc__)
    parser.add_argument("--check", action="store_true", help="compare the files with what is drawn, and write none")
    parser.add_argument("--folder", metavar="FOLDER", default=PICTURES, help="where the files are (docs/pictures)")
    given = parser.parse_args()
    if given.check:
        told = Report("diagrams")
        for name in DIAGRAMS:
            check(told, given.folder, name)
        return told.conclude()
    for name, text in [(name, draw()) for name, draw in DIAGRAMS.items()]:
        with open(path_of(given.folder, name), "w", encoding="utf-8") as file:
            file.write(text)
    print(f"{len(DIAGRAMS)} diagrams in {given.folder}")
    return report.WELL


if __name__ == "__main__":
    report.end(main)
