#!/usr/bin/env python3
"""Tells what each .tri file of the suite asks of a driver, and keeps it in tags.json.

    tags.py             checks tags.json
    tags.py --write     writes it anew
    tags.py FILE.tri..  tells the tags of other files

    samples        the pattern that is needed
    triangles      how many there are
    reach          how far the farthest coordinate lies from the image's top left, in pixels, rounded up
    subpixel_bits  the least with which no corner is rounded
    floats         whether all coordinates, in 1/256 pixel, are floats of 32 bits

The status is 0, or 1 where tags.json isn't current, or 2 where a file can't be read.
"""

from __future__ import annotations

import argparse
import json
import os
import sys

sys.path.insert(0, os.path.dirname(os.path.abspath(__file__)))

from testing.cases import SUITE, scenes  # noqa: E402
from testing.faults import Unusable, read_text  # noqa: E402
from testing.scenes import bits_needed, is_float, scene_of  # noqa: E402

TAGS = os.path.join(SUITE, "tags.json")


def tags_of(path: str) -> dict:
    scene = scene_of(read_text(path), path)
    values = [value for triangle in scene.triangles for corner in triangle.corners for value in corner]
    return {
        "samples": scene.samples,
        "triangles": len(scene.triangles),
        "reach": (max((abs(value) for value in values), default=0) + 255) // 256,
        "subpixel_bits": max(map(bits_needed, values), default=0),
        "floats": all(map(is_float, values)),
    }


def text_of(tags: dict[str, dict]) -> str:
    lines = [f" {json.dumps(name)}: {json.dumps(tags[name])}" for name in sorted(tags)]
    return "{\n" + ",\n".join(lines) + "\n}\n"


def main() -> None:
    parser = argparse.ArgumentParser(description=__doc__, formatter_class=argparse.RawDescriptionHelpFormatter)
    parser.add_argument("files", nargs="*", metavar="FILE.tri")
    parser.add_argument("--write", action="store_true")
    given = parser.parse_args()
    try:
        if given.files:
            print(text_of({path: tags_of(path) for path in given.files}), end="")
            return
        text = text_of({name: tags_of(os.path.join(SUITE, name + ".tri")) for name in scenes()})
        if given.write:
            with open(TAGS, "w", encoding="utf-8") as file:
                file.write(text)
        elif not os.path.exists(TAGS) or read_text(TAGS) != text:
            print("tags.py: tags.json isn't current; write it anew with --write")
            sys.exit(1)
    except (Unusable, OSError) as why:
        print(f"tags.py: {why}", file=sys.stderr)
        sys.exit(2)


if __name__ == "__main__":
    main()
