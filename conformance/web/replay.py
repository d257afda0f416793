#!/usr/bin/env python3
"""Stands as a driver for conformance/runner.py, and gives what a browser gave before.

    replay.py RESULTS.json [--info | --mode MODE --attachment KIND] < scene.tri

RESULTS.json is what the page index.html saves. The status is 0, or 3 for a scene, mode or attachment
that isn't in it, or 2 where it can't be read.
"""

from __future__ import annotations

import json
import os
import sys

HERE = os.path.dirname(os.path.abspath(__file__))
sys.path.insert(0, os.path.dirname(HERE))

from testing.cases import SUITE, scenes  # noqa: E402
from testing.faults import Unusable, read_text  # noqa: E402


def end(status: int, why: str) -> None:
    print(f"replay.py: {why}", file=sys.stderr)
    sys.exit(status)


def main() -> None:
    if len(sys.argv) < 2:
        end(2, "the results of the page are missing; save them there as JSON")
    path, *words = sys.argv[1:]
    try:
        results = json.loads(read_text(path))
        driver, fragments = results["driver"], results["fragments"]
    except Unusable as why:
        end(2, str(why))
    except (ValueError, KeyError, TypeError):
        end(2, f"{path}: isn't what the page saves")
    if "--info" in words:
        print(json.dumps(driver))
        return
    options = dict(zip(words[::2], words[1::2]))
    known = fragments.get(f"{options.get('--mode')}.{options.get('--attachment')}")
    if known is None:
        end(3, "the page didn't draw in this mode")
    text = sys.stdin.read()
    name = next((scene for scene in scenes() if read_text(os.path.join(SUITE, scene + ".tri")) == text), "")
    if name not in known:
        end(3, "the page didn't draw this scene")
    sys.stdout.write(known[name])


if __name__ == "__main__":
    main()
