"""Numbers, lines and values as docs/FORMATS.md reads them, and its limits."""

import argparse
import io
import re
from typing import Iterator, NamedTuple

LENGTH = 65536  # units of a coordinate
COLOUR = 65535  # units of a colour or an alpha
FARTHEST = 2147483647
MOST_BYTES = 67108864
MOST_POINTS = 1048576
MOST_TRIANGLES = 1048576
MOST_ELEMENTS = 1024
MOST_LIBRARIES = 16
MOST_MATERIALS = 4096
MOST_PATH_BYTES = 1048576
MOST_IMAGES = 4096
MOST_SIDE = 4096
MOST_PIXELS = 4194304
MOST_NODES = 8388608
MOST_TURN = 1024
SAMPLES = (1, 2, 4, 8, 16)

BLANKS = b" \t\r"
NUMBER = re.compile(rb"([+-]?)([0-9]+\.?[0-9]*|\.[0-9]+)(?:[eE]([+-]?)([0-9]+))?")
ELEMENT = re.compile(rb"(-?[0-9]{1,10})(?:/(?:-?[0-9]{1,10})?(?:/(?:-?[0-9]{1,10})?)?)?")
FREE_FORMS = frozenset(b"cstype deg bmat step curv curv2 surf parm trim hole scrv sp end con call".split())


def round_div(n: int, m: int) -> int:
    """n / m rounded to the nearest whole number, halves away from zero, for m above 0."""
    return (2 * n + m) // (2 * m) if n >= 0 else -((-2 * n + m) // (2 * m))


def scaled(text: bytes, k: int) -> int | None:
    """The whole number nearest to k times the decimal number, or None where there is none."""
    match = NUMBER.fullmatch(text)
    if match is None:
        return None
    sign, digits, exponent_sign, exponent = match.groups()
    before, _, after = digits.partition(b".")
    if len(before + after) > 30 or len(exponent or b"") > 3:
        return None
    places = int(exponent or b"0") * (-1 if exponent_sign == b"-" else 1) - len(after)
    value = int(before + after) * (-1 if sign == b"-" else 1)
    result = round_div(value * k * 10 ** max(places, 0), 10 ** max(-places, 0))
    return result if -FARTHEST <= result <= FARTHEST else None


def is_keyword(token: bytes) -> bool:
    """Whether a scene may have this keyword."""
    return token not in FREE_FORMS and all(33 <= byte <= 126 for byte in token)


class Line(NamedTuple):
    """A line that isn't blank, of a scene, a library or a path."""

    number: int
    keyword: bytes
    arguments: list[bytes]  # the tokens after the keyword, up to one that begins with '#'
    rest: bytes  # all after the keyword, without blanks at both ends


def lines(data: bytes) -> Iterator[Line]:
    """The lines that aren't blank. LF ends a line; a token is a run of other bytes than blanks."""
    for number, line in enumerate(io.BytesIO(data), 1):
        text = line.rstrip(b"\n").strip(BLANKS)
        if not text or text.startswith(b"#"):
            continue
        tokens = [token for token in re.split(rb"[ \t\r]+", text) if token]
        arguments = []
        for token in tokens[1:]:
            if token.startswith(b"#"):
                break
            arguments.append(token)
        yield Line(number, tokens[0], arguments, text[len(tokens[0]):].strip(BLANKS))


# ---- values of options, as readers of a command line

Turn = tuple[int, int, int, int]


def turn_of(text: str) -> Turn:
    """The quaternion of --turn."""
    parts = [int(part) for part in text.split(",") if re.fullmatch(r"-?[0-9]{1,4}", part, re.ASCII)]
    if len(parts) != 4 or text.count(",") != 3 or not any(parts) or max(abs(part) for part in parts) > MOST_TURN:
        raise argparse.ArgumentTypeError("four whole numbers from -1024 to 1024, not all 0")
    return parts[0], parts[1], parts[2], parts[3]


def size_of(text: str) -> tuple[int, int]:
    """The width and the height of --size."""
    sides = [int(side) for side in text.split("x") if re.fullmatch(r"[0-9]{1,4}", side, re.ASCII)]
    if len(sides) != 2 or text.count("x") != 1 or not all(1 <= side <= MOST_SIDE for side in sides) \
            or sides[0] * sides[1] > MOST_PIXELS:
        raise argparse.ArgumentTypeError("WxH, each from 1 to 4096, and at most 4194304 pixels")
    return sides[0], sides[1]


def commands_of(text: str) -> list[str]:
    """The commands in the comment lines at the head of an example, without their '# '."""
    found = []
    for line in text.splitlines():
        if line.startswith("# abuf "):
            found.append(line[2:].strip())
        elif not line.startswith("#"):
            break
    return found
