"""The drivers that are tested, the oracle, and what each is asked."""

from __future__ import annotations

import glob
import json
import os
import platform
import shlex
import shutil
import sys
from dataclasses import dataclass, field
from functools import lru_cache

from testing.faults import Unusable
from testing.processes import Answer, Processes

HERE = os.path.dirname(os.path.abspath(__file__))
SUITE = os.path.dirname(HERE)
TOP = os.path.dirname(SUITE)
sys.path.insert(0, os.path.join(TOP, "examples", "driver"))

import build  # noqa: E402

NOT_SUPPORTED = 3  # the status of a driver that lacks what a case needs
MOST_KEPT = 512  # scenes of the suite, and answers to them: more than there are
MODES = ("native", "grid", "magnify", "emulate", "image")
ATTACHMENTS = ("none", "rgba8", "bgra8")
ICD_FOLDERS = ("/etc/vulkan/icd.d", "/usr/local/share/vulkan/icd.d", "/usr/share/vulkan/icd.d", "/usr/lib/chromium")
TOLD_VARIABLES = ("VK_", "LIBGL", "GALLIUM", "LP_", "MESA", "EGL", "DRI_")
KEYS = {"interface": str, "name": str, "version": str, "device": str, "subpixel_bits": int, "viewport": int,
        "sample_counts": dict, "sample_offsets": dict}


@dataclass
class Driver:
    words: list[str]
    variables: dict[str, str] = field(default_factory=dict)  # of the environment, those that are set for it
    info: dict = field(default_factory=dict)

    @property
    def environment(self) -> dict[str, str]:
        return {**os.environ, **self.variables}

    @property
    def command(self) -> str:
        """As typed at the top of the checkout."""
        words = [os.path.relpath(word, TOP) if word.startswith(TOP + os.sep) else word for word in self.words]
        return " ".join([f"{name}={shlex.quote(value)}" for name, value in self.variables.items()]
                        + [shlex.join(words)])

    def call(self, processes: Processes, words: list[str], data: bytes, timeout: float) -> Answer:
        try:
            return processes.call(self.words + words, data, timeout, self.environment)
        except OSError as why:
            raise Unusable(f"{self.words[0]}: {why.strerror}") from None

    def identify(self, processes: Processes, timeout: float) -> None:
        """Asks the driver what it is."""
        answer = self.call(processes, ["--info"], b"", timeout)
        if answer.status is None:
            raise Unusable(f"the driver doesn't tell what it is within {timeout:g} s")
        if answer.status != 0:
            raise Unusable(f"{self.words[0]} --info ends with status {answer.status}"
                           + (f": {answer.last_line}" if answer.last_line else ""))
        try:
            info = json.loads(answer.out)
            if not all(isinstance(info[key], kind) for key, kind in KEYS.items()):
                raise ValueError
        except (ValueError, KeyError, TypeError):
            raise Unusable("what the driver writes on --info isn't as examples/driver/README.md says") from None
        told = {name: value for name, value in self.environment.items() if name.startswith(TOLD_VARIABLES)}
        self.info = {**info, "command": self.command, "environment": told,
                     "host": f"{platform.system()} {platform.release()} {platform.machine()}"}


def icd_of(name: str) -> str:
    """The path of a Vulkan driver's ICD file, from its path or a part of its name."""
    if os.path.exists(name):
        return os.path.abspath(name)
    there = [path for folder in ICD_FOLDERS for path in sorted(glob.glob(os.path.join(folder, "*.json")))]
    found = [path for path in there if name in os.path.basename(path)]
    if not found:
        names = ", ".join(os.path.basename(path) for path in there) or "none"
        raise Unusable(f"no Vulkan driver's ICD file is {name}; there are {names}; Debian's mesa-vulkan-drivers has "
                       "lvp, and its chromium SwiftShader")
    return found[0]


def built(program: str) -> str:
    try:
        return build.build(program)
    except (build.Missing, OSError) as why:
        raise Unusable(str(why)) from None


def vulkan_driver(icd: str) -> Driver:
    """The driver of an ICD file, or the one that the loader finds."""
    variables = {}
    if icd:
        path = icd_of(icd)
        variables = {"VK_ICD_FILENAMES": path, "VK_DRIVER_FILES": path}
    return Driver([built("vulkan")], variables)


def egl_driver() -> Driver:
    return Driver([built("opengl")])


def command_driver(command: str) -> Driver:
    try:
        words = shlex.split(command)
    except ValueError as why:
        raise Unusable(f"--driver: {why}") from None
    if not words or shutil.which(words[0]) is None:
        raise Unusable(f"--driver: there is no program {words[0]}" if words else "--driver has no command")
    return Driver(words)


class Oracle:
    """The exact answers, by the program `exact`. Most modes of a scene have the same one, so they are kept."""

    def __init__(self, processes: Processes, kept: int) -> None:
        self.processes = processes
        self.program = built("exact")
        self.fragments = lru_cache(kept)(self.ask_fragments)
        self.image = lru_cache(kept)(self.ask_image)

    def ask(self, words: list[str], data: bytes) -> bytes:
        answer = self.processes.call([self.program, *words], data, None)
        if answer.status != 0:
            raise Unusable(answer.last_line or "the oracle was ended")
        return answer.out

    def ask_fragments(self, data: bytes, bits: int = 8) -> bytes:
        return self.ask(["--bits", str(bits)], data)

    def ask_image(self, data: bytes, *words: str) -> bytes:
        return self.ask(["--image", "--maxval", "65535", *words], data)
