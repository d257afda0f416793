#!/usr/bin/env python3
"""Builds the programs of this folder into its subfolder out/, those of which a source has changed.

    build.py [exact] [opengl] [vulkan]      all of them, if none is named

They need a C compiler with 128-bit integers (GCC or Clang); CC names another one than cc. The status
is 0, or 2 where something is missing or doesn't compile. One line says what to install.
"""

from __future__ import annotations

import argparse
import os
import shlex
import shutil
import subprocess
import sys
from dataclasses import dataclass

HERE = os.path.dirname(os.path.abspath(__file__))
OUT = os.path.join(HERE, "out")
SHARED = ("main.c", "scene.c", "lists.c", "coverage.c")
HEADERS = ("scene.h", "lists.h", "coverage.h", "driver.h")
FLAGS = ("-std=c11", "-D_GNU_SOURCE", "-O2", "-Wall", "-Wextra", "-Werror")


class Missing(Exception):
    """What isn't there, or doesn't compile, in one line."""


@dataclass(frozen=True)
class Program:
    sources: tuple[str, ...]
    shaders: tuple[str, ...] = ()
    libraries: tuple[str, ...] = ()  # as pkg-config names them
    packages: str = ""  # of Debian


PROGRAMS = {
    "exact": Program(("exact.c",)),
    "opengl": Program(("opengl.c",), (), ("egl", "opengl"),
                      "pkg-config libegl-dev libopengl-dev libgl-dev libgl1-mesa-dri"),
    "vulkan": Program(("vulkan.c",), ("lists.vert", "lists.frag", "offsets.frag"), ("vulkan",),
                      "pkg-config libvulkan-dev glslang-tools mesa-vulkan-drivers"),
}


def path_of(program: str) -> str:
    return os.path.join(OUT, program)


def run(command: list[str], what: str) -> str:
    done = subprocess.run(command, capture_output=True, text=True)
    if done.returncode != 0:
        lines = (done.stderr or done.stdout).strip().splitlines() or ["no message"]
        faults = [line for line in lines if "error" in line.lower()] or lines
        raise Missing(f"{what}: {faults[0]}")
    return done.stdout


def compiler() -> list[str]:
    words = shlex.split(os.environ.get("CC", "cc")) or ["cc"]
    if shutil.which(words[0]) is None:
        raise Missing(f"there is no C compiler {words[0]}; install gcc and libc6-dev")
    return words


def library_flags(program: Program) -> list[str]:
    if not program.libraries:
        return []
    if shutil.which("pkg-config") is None:
        raise Missing(f"there is no pkg-config; install {program.packages}")
    done = subprocess.run(["pkg-config", "--cflags", "--libs", *program.libraries],
                          capture_output=True, text=True)
    if done.returncode != 0:
        raise Missing(f"the headers of {' and '.join(program.libraries)} aren't there; install {program.packages}")
    return done.stdout.split()


def compile_shaders(program: Program) -> None:
    """Makes a header of each shader, with its code as an array named for it."""
    if program.shaders and shutil.which("glslangValidator") is None:
        raise Missing("there is no glslangValidator; install glslang-tools")
    for shader in program.shaders:
        run(["glslangValidator", "-V", "--target-env", "vulkan1.0", "--vn", shader.replace(".", "_"),
             "-o", os.path.join(OUT, shader + ".h"), os.path.join(HERE, shader)], shader)


def is_current(name: str, program: Program) -> bool:
    if not os.path.exists(path_of(name)):
        return False
    sources = [*SHARED, *HEADERS, *program.sources, *program.shaders, os.path.basename(__file__)]
    newest = max(os.path.getmtime(os.path.join(HERE, source)) for source in sources)
    return newest <= os.path.getmtime(path_of(name))


def build(name: str) -> str:
    """Builds a program where it isn't current, and gives its path."""
    program = PROGRAMS[name]
    if not is_current(name, program):
        words, flags = compiler(), library_flags(program)
        os.makedirs(OUT, exist_ok=True)
        compile_shaders(program)
        sources = [os.path.join(HERE, source) for source in (*SHARED, *program.sources)]
        made = f"{path_of(name)}.{os.getpid()}"  # so that two builds at once don't meet
        run([*words, *FLAGS, f"-I{OUT}", *sources, "-o", made, *flags], name)
        os.replace(made, path_of(name))
    return path_of(name)


def main() -> None:
    parser = argparse.ArgumentParser(description=__doc__, formatter_class=argparse.RawDescriptionHelpFormatter)
    parser.add_argument("programs", nargs="*", metavar="PROGRAM", help="exact, opengl or vulkan")
    names = parser.parse_args().programs or list(PROGRAMS)
    try:
        for name in names:
            if name not in PROGRAMS:
                raise Missing(f"there is no program {name}, but {', '.join(PROGRAMS)}")
            print(build(name))
    except (Missing, OSError) as why:
        print(f"build.py: {why}", file=sys.stderr)
        sys.exit(2)


if __name__ == "__main__":
    main()
