#!/usr/bin/env python3
"""Draws a scene with the lists of each pixel that examples/driver makes with an OpenGL driver.

    draw_opengl.py SCENE.obj IMAGE WORDS..

    LIBGL_ALWAYS_SOFTWARE=1 examples/renderers/draw_opengl.py examples/cube.obj cube.pam --size 320x240 --turn=8,2,-3,0

The corners are put on the screen by tools/reference.py, and the lists are ordered and folded in whole numbers. So only coverage is
the driver's. EGL chooses the driver.
"""

import json
import os
import subprocess
import sys

import renderer

DRIVERS = os.path.join(renderer.TOP, "examples", "driver")


def build(interface: str) -> str:
    """The program of an interface, built where it isn't yet."""
    done = subprocess.run([sys.executable, os.path.join(DRIVERS, "build.py"), interface], capture_output=True, text=True)
    if done.returncode != 0:
        raise renderer.Cant(done.stderr.strip().partition(": ")[2] or f"{interface} can't be built")
    return done.stdout.strip()


def info_of(interface: str, name: str) -> renderer.Info:
    done = subprocess.run([build(interface), "--info"], capture_output=True, text=True)
    if done.returncode != 0:
        raise renderer.Cant(done.stderr.strip().partition(": ")[2] or f"there is no driver of {name}")
    told = json.loads(done.stdout)
    return renderer.Info(f"{name}, lists of each pixel", told["version"], told["device"])


def draw_with(interface: str, scene: renderer.Scene, image: str) -> renderer.Run:
    triangles = renderer.run([sys.executable, os.path.join(renderer.TOP, "conformance", "tri.py"), scene.path, *scene.words])
    done = renderer.run([build(interface), "--image"], triangles.out, LP_NUM_THREADS=str(scene.threads))
    with open(image, "wb") as file:
        file.write(done.out)
    return done


def info() -> renderer.Info:
    return info_of("opengl", "OpenGL")


def draw(scene: renderer.Scene, image: str) -> renderer.Run:
    return draw_with("opengl", scene, image)


if __name__ == "__main__":
    renderer.main(info, draw)
