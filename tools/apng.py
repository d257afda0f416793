#!/usr/bin/env python3
"""Makes an animated picture of the images of a sequence, with Python's standard library alone.

    abuf sequence scene.path < scene.obj | apng.py [--milliseconds T] [--enlarge N] > scene.png

    apng.py --milliseconds 80 < lantern-turning.pam > lantern-turning.png

Standard input has PAM images as abuf writes them, one after another, all of one size and MAXVAL. The
output is an APNG, the form of PNG that browsers show as a moving picture; other programs show its
first image. A single image becomes a PNG as every program shows it. The values are kept as they are, 8 or 16 bits of them. After the first, only the part of
an image is kept in which it differs from the one before.

The status is 0 where the picture was written, and 2 where the input isn't such images.
"""

import struct
import sys
import zlib
from typing import Iterable, Iterator, NamedTuple

from abuflib import pam, report
from abuflib.pam import Image, chunk
from abuflib.report import Fault


class Part(NamedTuple):
    """What of an image differs from the one before."""
    x: int
    y: int
    width: int
    rows: list[bytes]


def whole(image: Image) -> Part:
    return Part(0, 0, image.width, image.rows())


def changed(before: Image, image: Image) -> Part:
    """The smallest rectangle outside of which the two images are the same, at least one pixel."""
    pixel = image.pixel
    ys = [y for y in range(image.height) if before.row(y) != image.row(y)] or [0]
    columns = [i // pixel for y in ys for i, (a, b) in enumerate(zip(before.row(y), image.row(y)))
               if a != b] or [0]
    left, right = min(columns), max(columns) + 1
    rows = [image.row(y)[left * pixel:right * pixel] for y in range(ys[0], ys[-1] + 1)]
    return Part(left, ys[0], right - left, rows)


def apng_of(images: Iterable[Image], milliseconds: int) -> bytes:
    """The bytes of the animated picture, which begins anew after its last image."""
    chunks: list[bytes] = []
    count = 0
    first: Image | None = None
    before: Image | None = None
    for number, image in enumerate(images):
        first = first or image
        if image[:3] != first[:3]:
            raise Fault(f"image {number + 1} has another size or another MAXVAL than the first")
        part = whole(image) if before is None else changed(before, image)
        # Its number, the part's size and place, its time, and that it replaces what is there.
        chunks.append(chunk(b"fcTL", struct.pack(
            ">IIIIIHHBB", count, part.width, len(part.rows), part.x, part.y, milliseconds, 1000,
            0, 0)))
        data = zlib.compress(pam.filtered(part.rows, image.pixel), 9)
        count += 1
        if before is None:
            chunks.append(chunk(b"IDAT", data))
        else:
            chunks.append(chunk(b"fdAT", struct.pack(">I", count) + data))
            count += 1
        before = image
    if first is None:
        raise Fault("there is no image")
    bits = 8 if first.maxval == 255 else 16
    head = struct.pack(">IIBBBBB", first.width, first.height, bits, 2, 0, 0, 0)
    number = sum(one[4:8] == b"fcTL" for one in chunks)
    animation = [chunk(b"acTL", struct.pack(">II", number, 0)), *chunks] if number > 1 else chunks[1:]
    return b"".join([pam.SIGNATURE, chunk(b"IHDR", head), *animation, chunk(b"IEND", b"")])


def images_of_apng(png: bytes) -> Iterator[Image]:
    """The images of a picture that was written here, one by one."""
    image, place = Image(0, 0, 255, b""), (0, 0, 0, 0)
    for kind, data in pam.chunks_of(png):
        if kind == b"IHDR":
            width, height, bits = struct.unpack(">IIB", data[:9])
            image = Image(width, height, 2 ** bits - 1, bytes(width * height * 3 * bits // 8))
        elif kind == b"fcTL":
            width, height, x, y = struct.unpack(">4I", data[4:20])
            place = width, height, x, y
        elif kind in (b"IDAT", b"fdAT"):
            image = put(image, place, zlib.decompress(data if kind == b"IDAT" else data[4:]))
            yield image


def put(image: Image, place: tuple[int, int, int, int], data: bytes) -> Image:
    """The image with the rows of a part in their place."""
    width, _, x, y = place
    values = bytearray(image.values)
    for i, row in enumerate(pam.unfiltered(data, width, image.pixel)):
        at = ((y + i) * image.width + x) * image.pixel
        values[at:at + len(row)] = row
    return image._replace(values=bytes(values))


def main() -> None:
    parser = report.words(__doc__)
    parser.add_argument("--milliseconds", type=int, default=100, metavar="T",
                        help="how long each image is shown, 1 to 65535 (100)")
    parser.add_argument("--enlarge", type=int, default=1, metavar="N", help="show each pixel N by N times (1)")
    given = parser.parse_args()
    if not 1 <= given.milliseconds <= 65535:
        parser.error("an image is shown for 1 to 65535 milliseconds")
    if not 1 <= given.enlarge <= 64:
        parser.error("a pixel is shown 1 to 64 times")
    images = (pam.enlarged(image, given.enlarge) for image in pam.stream(sys.stdin.buffer))
    sys.stdout.buffer.write(apng_of(images, given.milliseconds))
    sys.stdout.buffer.flush()


if __name__ == "__main__":
    report.end(main)
