"""Images: reading PAM, why two differ though their fragments agree, and pictures for the page."""

from __future__ import annotations

import re
import struct
import zlib
from dataclasses import dataclass

from testing.verdicts import Malformed

HEADER = re.compile(rb"P7\nWIDTH (\d+)\nHEIGHT (\d+)\nDEPTH 3\nMAXVAL (255|65535)\nTUPLTYPE RGB\nENDHDR\n")
MOST_SIDE = 64  # of a picture; a larger image is cut to the surroundings of its worst pixel


@dataclass
class Image:
    width: int
    height: int
    maxval: int
    values: tuple[int, ...]  # red, green and blue of each pixel, in rows from the top

    def pixel(self, x: int, y: int) -> tuple[int, ...]:
        start = 3 * (y * self.width + x)
        return self.values[start:start + 3]


def image_of(data: bytes) -> Image:
    header = HEADER.match(data)
    if header is None:
        raise Malformed("it isn't a PAM image of three channels")
    width, height, maxval = map(int, header.groups())
    count = 3 * width * height
    form = f">{count}{'B' if maxval == 255 else 'H'}"
    if len(data) - header.end() != struct.calcsize(form):
        raise Malformed("it has another length than its header says")
    return Image(width, height, maxval, struct.unpack(form, data[header.end():]))


def differing(a: Image, b: Image) -> dict[tuple[int, int], int]:
    """The pixels that differ, and by how much at most."""
    found = {}
    for y in range(a.height):
        for x in range(a.width):
            if (p := a.pixel(x, y)) != (q := b.pixel(x, y)):
                found[x, y] = max(abs(v - w) for v, w in zip(p, q))
    return found


# ---- pictures


def png(width: int, height: int, pixels: bytes) -> bytes:
    def chunk(kind: bytes, data: bytes) -> bytes:
        return struct.pack(">I", len(data)) + kind + data + struct.pack(">I", zlib.crc32(kind + data))

    rows = b"".join(b"\0" + pixels[3 * width * y:3 * width * (y + 1)] for y in range(height))
    header = struct.pack(">IIBBBBB", width, height, 8, 2, 0, 0, 0)
    return (b"\x89PNG\r\n\x1a\n" + chunk(b"IHDR", header) + chunk(b"IDAT", zlib.compress(rows, 9))
            + chunk(b"IEND", b""))


@dataclass
class Window:
    """The part of an image that a picture shows."""

    left: int
    top: int
    width: int
    height: int


def window_about(image: Image, pixel: tuple[int, int]) -> Window:
    width, height = min(MOST_SIDE, image.width), min(MOST_SIDE, image.height)
    left = max(0, min(image.width - width, pixel[0] - width // 2))
    top = max(0, min(image.height - height, pixel[1] - height // 2))
    return Window(left, top, width, height)


def rows_of(image: Image, window: Window) -> list[tuple[int, ...]]:
    """The values of each row that the window shows."""
    starts = [3 * (y * image.width + window.left) for y in range(window.top, window.top + window.height)]
    return [image.values[start:start + 3 * window.width] for start in starts]


def picture(image: Image, window: Window) -> bytes:
    """A PNG of what the window shows."""
    values = bytes(value * 255 // image.maxval for row in rows_of(image, window) for value in row)
    return png(window.width, window.height, values)


def difference_picture(a: Image, b: Image, window: Window, known: set[tuple[int, int]]) -> bytes:
    """Red for a small difference to yellow for a great one, over the first image, grey and dim. Pixels that are known
    to differ are red also where the colours agree."""
    pixels = bytearray()
    for y, (p, q) in enumerate(zip(rows_of(a, window), rows_of(b, window)), window.top):
        for x in range(window.width):
            colour, other = p[3 * x:3 * x + 3], q[3 * x:3 * x + 3]
            if colour != other or (window.left + x, y) in known:
                greatest = max(abs(v - w) for v, w in zip(colour, other))
                pixels += bytes((255, 255 * greatest // a.maxval, 0))
            else:
                pixels += bytes([sum(colour) * 85 // (3 * a.maxval)]) * 3
    return png(window.width, window.height, bytes(pixels))
