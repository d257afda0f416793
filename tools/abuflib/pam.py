"""Images: reading and writing PAM, PPM and PNG, with the standard library alone.

An image has red, green and blue in rows from the top, each value one byte, or two with the high byte first where MAXVAL is above
255. Alpha is left out, and grey becomes three equal values.
"""

import re
import struct
import zlib
from array import array
from typing import IO, Iterable, Iterator, NamedTuple, Sequence

from abuflib.report import Fault

SIGNATURE = b"\x89PNG\r\n\x1a\n"
LONGEST_HEADER = 80  # of an image that abuf writes
ABUF_HEADER = re.compile(rb"P7\nWIDTH (\d+)\nHEIGHT (\d+)\nDEPTH 3\nMAXVAL (255|65535)\nTUPLTYPE RGB\nENDHDR\n")


class Image(NamedTuple):
    width: int
    height: int
    maxval: int
    values: bytes

    @property
    def pixel(self) -> int:
        """The bytes of a pixel."""
        return 3 if self.maxval < 256 else 6

    def row(self, y: int) -> bytes:
        length = self.width * self.pixel
        return self.values[y * length:(y + 1) * length]

    def rows(self) -> list[bytes]:
        return [self.row(y) for y in range(self.height)]

    def at(self, x: int, y: int) -> tuple[int, ...]:
        """The values of a pixel."""
        start = (y * self.width + x) * self.pixel
        return tuple(numbers(self.values[start:start + self.pixel], self.maxval))

    def shape(self) -> str:
        return f"{self.width}x{self.height}, MAXVAL {self.maxval}"


def numbers(values: bytes, maxval: int) -> Sequence[int]:
    """The values as numbers."""
    if maxval < 256:
        return values
    found = array("H", values)
    if array("H", [1]).tobytes() == b"\1\0":
        found.byteswap()
    return found


def from_numbers(width: int, height: int, maxval: int, values: Iterable[int]) -> Image:
    if maxval < 256:
        return Image(width, height, maxval, bytes(values))
    found = array("H", values)
    if array("H", [1]).tobytes() == b"\1\0":
        found.byteswap()
    return Image(width, height, maxval, found.tobytes())


# ---- PAM


def header(width: int, height: int, maxval: int = 255) -> bytes:
    return f"P7\nWIDTH {width}\nHEIGHT {height}\nDEPTH 3\nMAXVAL {maxval}\nTUPLTYPE RGB\nENDHDR\n".encode()


def to_pam(image: Image) -> bytes:
    return header(image.width, image.height, image.maxval) + image.values


def stream(file: IO[bytes]) -> Iterator[Image]:
    """The images of a stream as abuf writes it, one by one."""
    rest = b""
    while True:
        rest += file.read(LONGEST_HEADER - len(rest))
        if not rest:
            return
        found = ABUF_HEADER.match(rest)
        if found is None:
            raise Fault(f"no image of abuf begins with {rest[:40]!r}")
        width, height, maxval = map(int, found.groups())
        image = Image(width, height, maxval, b"")
        length = image.width * image.height * image.pixel
        rest = rest[found.end():]
        rest += file.read(max(0, length - len(rest)))
        if len(rest) < length:
            raise Fault("the last image isn't whole")
        yield image._replace(values=rest[:length])
        rest = rest[length:]


def read(data: bytes, name: str = "the image") -> Image:
    """The image of the bytes of a PAM, PPM, PGM or PNG."""
    if data.startswith(SIGNATURE):
        return from_png(data, name)
    found = netpbm_header(data)
    if found is None:
        raise Fault(f"{name}: not a PAM, PPM, PGM or PNG; netpbm's anytopnm makes a PPM of it")
    width, height, depth, maxval, start = found
    count = width * height * depth
    size = count if maxval < 256 else 2 * count
    if len(data) < start + size:
        raise Fault(f"{name}: ends before its last value")
    return in_colour(width, height, depth, maxval, data[start:start + size])


def netpbm_header(data: bytes) -> tuple[int, int, int, int, int] | None:
    """Width, height, depth, MAXVAL, and where the values begin; None if there is no such header."""
    pam = re.match(rb"P7\n(.*?)^ENDHDR\n", data, re.S | re.M)
    if pam:
        lines = dict(re.findall(rb"(?m)^(WIDTH|HEIGHT|DEPTH|MAXVAL)\s+(\d+)", pam.group(1)))
        if len(lines) < 4:
            return None
        width, height, depth, maxval = (int(lines[word]) for word in (b"WIDTH", b"HEIGHT", b"DEPTH", b"MAXVAL"))
        return (width, height, depth, maxval, pam.end()) if depth and 0 < maxval < 65536 else None
    space = rb"(?:\s|#[^\n]*\n)+"
    ppm = re.match(space.join([rb"P([56])", rb"(\d+)", rb"(\d+)", rb"(\d+)"]) + rb"\s", data)
    if ppm:
        kind, width, height, maxval = map(int, ppm.groups())
        return width, height, 1 if kind == 5 else 3, maxval, ppm.end()
    return None


def in_colour(width: int, height: int, depth: int, maxval: int, values: bytes) -> Image:
    """An image of values that may be grey, and may have alpha."""
    if depth == 3:
        return Image(width, height, maxval, values)
    size = 1 if maxval < 256 else 2
    places = (0, 0, 0) if depth < 3 else (0, 1, 2)
    out = bytearray(3 * size * width * height)
    for channel, place in enumerate(places):
        for byte in range(size):
            out[channel * size + byte::3 * size] = values[place * size + byte::depth * size]
    return Image(width, height, maxval, bytes(out))


def enlarged(image: Image, times: int) -> Image:
    """The image with each pixel as a square of so many."""
    pixel, rows = image.pixel, []
    for row in image.rows():
        rows += [b"".join(row[i:i + pixel] * times for i in range(0, len(row), pixel))] * times
    return Image(image.width * times, image.height * times, image.maxval, b"".join(rows))


# ---- PNG


def chunk(kind: bytes, data: bytes) -> bytes:
    return struct.pack(">I", len(data)) + kind + data + struct.pack(">I", zlib.crc32(kind + data))


def paeth(left: int, up: int, corner: int) -> int:
    """Of the three the one that is nearest to left + up - corner."""
    guess = left + up - corner
    far = abs(guess - left), abs(guess - up), abs(guess - corner)
    return left if far[0] <= far[1] and far[0] <= far[2] else up if far[1] <= far[2] else corner


def guesses(row: bytes, above: bytes, pixel: int) -> Iterator[Iterable[int]]:
    """For each of PNG's five filters the bytes that it takes from those of the row."""
    left = bytes(pixel) + row[:-pixel]
    corner = bytes(pixel) + above[:-pixel]
    yield bytes(len(row))
    yield left
    yield above
    yield [(a + b) // 2 for a, b in zip(left, above)]
    yield map(paeth, left, above, corner)


def filtered(rows: Sequence[bytes], pixel: int) -> bytes:
    """The rows with their filters, each the one that leaves the smallest differences."""
    above, out = bytes(len(rows[0])), []
    for row in rows:
        tries = [bytes((a - b) & 255 for a, b in zip(row, guess)) for guess in guesses(row, above, pixel)]
        kind = min(range(5), key=lambda k: sum(min(byte, 256 - byte) for byte in tries[k]))
        out.append(bytes([kind]) + tries[kind])
        above = row
    return b"".join(out)


def unfiltered(data: bytes, width: int, pixel: int) -> list[bytes]:
    """The rows of filtered data, each of so many pixels."""
    return unfiltered_rows(data, width * pixel, pixel)


def unfiltered_rows(data: bytes, length: int, pixel: int) -> list[bytes]:
    """The rows of filtered data, each of so many bytes."""
    rows: list[bytes] = []
    above = bytes(length)
    for start in range(0, len(data), length + 1):
        kind, row = data[start], bytearray(data[start + 1:start + 1 + length])
        if kind == 2:
            row = bytearray((a + b) & 255 for a, b in zip(row, above))
        elif kind:
            for i, byte in enumerate(row):
                left, corner = (row[i - pixel], above[i - pixel]) if i >= pixel else (0, 0)
                guess = left if kind == 1 else (left + above[i]) // 2 if kind == 3 else paeth(left, above[i], corner)
                row[i] = (byte + guess) & 255
        rows.append(bytes(row))
        above = rows[-1]
    return rows


def to_png(image: Image, is_small: bool = True) -> bytes:
    """A PNG with the same values, of 8 or 16 bits; a small one takes longer to make."""
    if image.maxval not in (255, 65535):
        raise Fault(f"a PNG can't have MAXVAL {image.maxval}")
    rows = image.rows()
    data = filtered(rows, image.pixel) if is_small else b"".join(b"\0" + row for row in rows)
    head = struct.pack(">IIBBBBB", image.width, image.height, 8 * image.pixel // 3, 2, 0, 0, 0)
    return SIGNATURE + chunk(b"IHDR", head) + chunk(b"IDAT", zlib.compress(data, 9 if is_small else 1)) + chunk(b"IEND", b"")


CHANNELS = {0: 1, 2: 3, 3: 1, 4: 2, 6: 4}  # of each colour type
# The seven passes of an interlaced PNG: the first column and row, and the steps.
PASSES = ((0, 0, 8, 8), (4, 0, 8, 8), (0, 4, 4, 8), (2, 0, 4, 4), (0, 2, 2, 4), (1, 0, 2, 2), (0, 1, 1, 2))


def chunks_of(data: bytes) -> Iterator[tuple[bytes, bytes]]:
    start = len(SIGNATURE)
    while start + 12 <= len(data):
        length, kind = struct.unpack(">I4s", data[start:start + 8])
        yield kind, data[start + 8:start + 8 + length]
        start += 12 + length


def from_png(data: bytes, name: str = "the picture") -> Image:
    """The image of a PNG of any kind. Values of fewer than 8 bits become 8 bits."""
    try:
        parts = list(chunks_of(data))
        width, height, bits, colour, _, _, interlace = struct.unpack(">IIBBBBB", dict(parts)[b"IHDR"])
        packed = zlib.decompress(b"".join(part for kind, part in parts if kind == b"IDAT"))
        palette = dict(parts).get(b"PLTE", b"")
        depth = CHANNELS[colour]
        values = interlaced(packed, width, height, bits, depth) if interlace else \
            b"".join(unpacked(row, width * depth, bits, colour == 3) for row in
                     unfiltered_rows(packed, (width * depth * bits + 7) // 8, max(1, depth * bits // 8)))
        if colour == 3:
            depth, values = 3, b"".join(palette[3 * i:3 * i + 3] for i in values)
        if len(values) != width * height * depth * max(1, bits // 8 if colour != 3 else 1):
            raise ValueError
    except (KeyError, IndexError, ValueError, struct.error, zlib.error):
        raise Fault(f"{name}: a broken PNG") from None
    return in_colour(width, height, depth, 65535 if bits == 16 else 255, values)


def unpacked(row: bytes, count: int, bits: int, is_palette: bool) -> bytes:
    """The values of a row that has several in a byte, scaled to 8 bits unless they count colours of a palette."""
    if bits >= 8:
        return row
    scale = 1 if is_palette else 255 // (2 ** bits - 1)
    values = (byte >> shift & 2 ** bits - 1 for byte in row for shift in range(8 - bits, -1, -bits))
    return bytes(value * scale for value, _ in zip(values, range(count)))


def interlaced(packed: bytes, width: int, height: int, bits: int, depth: int) -> bytes:
    """The values of an interlaced PNG."""
    if bits < 8:
        raise ValueError
    pixel = depth * bits // 8
    out, start = bytearray(width * height * pixel), 0
    for left, top, right, down in PASSES:
        columns, lines = -(-(width - left) // right), -(-(height - top) // down)
        if columns <= 0 or lines <= 0:
            continue
        size = lines * (columns * pixel + 1)
        for j, row in enumerate(unfiltered_rows(packed[start:start + size], columns * pixel, pixel)):
            for i in range(columns):
                place = ((top + j * down) * width + left + i * right) * pixel
                out[place:place + pixel] = row[i * pixel:(i + 1) * pixel]
        start += size
    return bytes(out)


def load(path: str) -> Image:
    """The image of a file."""
    try:
        with open(path, "rb") as file:
            return read(file.read(), path)
    except OSError as why:
        raise Fault(f"{path}: {why.strerror}") from None


def save(path: str, image: Image) -> None:
    """Writes a file: PNG if its name ends in .png, else PAM."""
    with open(path, "wb") as file:
        file.write(to_png(image) if path.endswith(".png") else to_pam(image))
