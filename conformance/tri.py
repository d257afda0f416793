#!/usr/bin/env python3
"""Writes the triangles of any scene as they lie on the screen, as a .tri file.

    tri.py SCENE.obj WORDS.. > SCENE.tri      WORDS are the options of `abuf render`

    conformance/tri.py examples/films.obj --size 320x240 --samples 4 > films.tri
    diff <(examples/driver/out/exact < films.tri) <(examples/driver/out/vulkan < films.tri)

Libraries are read from the scene's folder. The status is 0, or 2 where the scene or the words are
refused.
"""

from __future__ import annotations

import os
import sys

HERE = os.path.dirname(os.path.abspath(__file__))
sys.path[:0] = [HERE, os.path.join(os.path.dirname(HERE), "tools")]

import check  # noqa: E402
import reference  # noqa: E402
from scenes import triangles  # noqa: E402


def main() -> None:
    if len(sys.argv) < 2 or sys.argv[1] in ("-h", "--help"):
        print(__doc__, end="")
        sys.exit(0 if len(sys.argv) > 1 else 2)
    path, *words = sys.argv[1:]
    command = check.Command(["render", *words], os.path.basename(path), None)
    try:
        text = triangles.text_of(command, os.path.dirname(path) or ".")
    except reference.Refusal as refusal:
        print(f"tri.py: {refusal.text}", file=sys.stderr)
        sys.exit(2)
    except OSError as why:
        print(f"tri.py: {why.filename}: {why.strerror}", file=sys.stderr)
        sys.exit(2)
    sys.stdout.buffer.write(text)


if __name__ == "__main__":
    main()
