#!/usr/bin/env python3
"""Draws a scene with Blender's Cycles: one ray for each pixel, surfaces that glow and let light through, and no light.

    draw_cycles.py SCENE.obj IMAGE WORDS..

    examples/renderers/draw_cycles.py examples/cube.obj cube.png --size 320x240 --turn=8,2,-3,0

A ray goes through at most 1024 surfaces, and isn't ended at random before that (transparent_max_bounces, min_transparent_bounces).
The filter of pixels is so narrow that a ray goes through the pixel's centre, nearly. inside_blender.py makes the scene in Blender.
"""

import json
import os

import renderer

MADE = "made: "  # before the line of inside_blender.py


def info() -> renderer.Info:
    return renderer.Info("Cycles, of Blender", renderer.version(["blender", "--version"], "blender", r"Blender (\S+)"))


def draw(scene: renderer.Scene, image: str) -> renderer.Run:
    scene.save("scene.json")
    done = renderer.run(["blender", "--background", "--factory-startup", "--threads", str(scene.threads), "--python-exit-code", "1",
                         "--python", os.path.join(renderer.HERE, "inside_blender.py"), "--", "scene.json", image])
    told = [line for line in done.out.decode(errors="replace").splitlines() if line.startswith(MADE)]
    done.drawing = json.loads(told[-1][len(MADE):])["drawing"]
    return done


if __name__ == "__main__":
    renderer.main(info, draw)
