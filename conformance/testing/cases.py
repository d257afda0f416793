"""The cases of a run: which scenes, in which modes, and what is expected of them."""

from __future__ import annotations

import csv
import glob
import io
import json
import os
import re
from dataclasses import dataclass
from typing import Any

from testing.drivers import ATTACHMENTS, MODES, SUITE
from testing.faults import Unusable, read_text
from testing.verdicts import VERDICTS

STATUSES = ("Pass", "Warn", "Fail", "Crash", "Timeout", "Malformed", "Skip", "Missing")


@dataclass(frozen=True)
class Case:
    """A scene in a mode, named FOLDER/NAME@MODE or FOLDER/NAME@MODE.ATTACHMENT."""

    scene: str  # FOLDER/NAME
    mode: str
    attachment: str = "none"

    @property
    def name(self) -> str:
        return f"{self.scene}@{self.mode}" + (f".{self.attachment}" if self.attachment != "none" else "")

    @property
    def path(self) -> str:
        return os.path.join(SUITE, self.scene + ".tri")


def scenes() -> list[str]:
    """All scenes of the suite that have triangles on the screen."""
    paths = sorted(glob.glob(os.path.join(SUITE, "*", "*.tri")))
    if not paths:
        raise Unusable(f"{SUITE} has no .tri files")
    return [os.path.relpath(path, SUITE)[:-len(".tri")] for path in paths]


def mode_of(text: str) -> tuple[str, str]:
    """A mode and an attachment."""
    mode, _, attachment = text.partition(".")
    if mode not in MODES or (attachment or "none") not in ATTACHMENTS:
        raise Unusable(f"there is no mode {text}; modes are {', '.join(MODES)}, each with .rgba8, .bgra8 or nothing")
    return mode, attachment or "none"


def case_of(name: str, known: set[str]) -> Case:
    scene, _, mode = name.partition("@")
    if scene not in known or not mode:
        raise Unusable(f"there is no case {name}")
    return Case(scene, *mode_of(mode))


def json_of(path: str) -> Any:
    try:
        return json.loads(read_text(path))
    except ValueError:
        raise Unusable(f"{path}: isn't JSON; take it from the repository again") from None


def shows() -> dict[str, str]:
    """What each scene shows, in a sentence."""
    found = {}
    for path in glob.glob(os.path.join(SUITE, "*", "cases.json")):
        folder = os.path.basename(os.path.dirname(path))
        for record in json_of(path):
            found[f"{folder}/{record['name']}"] = record["shows"]
    return found


def tags() -> dict[str, dict]:
    """What each scene asks of a driver, as tags.py tells it."""
    path = os.path.join(SUITE, "tags.json")
    return json_of(path) if os.path.exists(path) else {}


# ---- lists


def lines_of(path: str) -> list[str]:
    """The lines of a list, without empty ones and those that begin with #."""
    return [line.strip() for line in read_text(path).splitlines() if line.strip() and not line.startswith("#")]


def patterns_of(texts: list[str], where: str) -> list[re.Pattern]:
    found = []
    for text in texts:
        try:
            found.append(re.compile(text))
        except re.error as why:
            raise Unusable(f"{where}: {text!r} is no regular expression: {why}") from None
    return found


@dataclass(frozen=True)
class Expected:
    status: str
    verdict: str  # or empty


def baseline_of(path: str, known: set[str]) -> dict[str, Expected]:
    """What is expected of cases that don't pass: lines NAME,STATUS,VERDICT."""
    found = {}
    for row in csv.reader(io.StringIO("\n".join(lines_of(path)))):
        name, status, *rest = [*row, ""] if len(row) < 3 else row
        if len(row) not in (2, 3) or status not in STATUSES or (rest[0] and rest[0] not in VERDICTS):
            raise Unusable(f"{path}: `{','.join(row)}` isn't NAME,STATUS,VERDICT")
        try:
            case_of(name, known)
        except Unusable as why:
            raise Unusable(f"{path}: {why}") from None
        found[name] = Expected(status, rest[0])
    return found


@dataclass
class Choice:
    """Which of the cases are run."""

    modes: list[str]
    caselist: str | None = None
    include: list[str] | None = None
    exclude: list[str] | None = None
    fraction: int = 1
    fraction_start: int = 1

    def cases(self) -> list[Case]:
        known = scenes()
        if self.caselist:
            cases = [case_of(name, set(known)) for name in lines_of(self.caselist)]
        else:
            cases = [Case(scene, *mode_of(mode)) for mode in self.modes for scene in known]
        include = patterns_of(self.include or [], "--include")
        exclude = patterns_of(self.exclude or [], "--exclude")
        cases = [case for case in cases if (not include or any(p.search(case.name) for p in include))
                 and not any(p.search(case.name) for p in exclude)]
        cases = cases[self.fraction_start - 1::self.fraction]
        if not cases:
            raise Unusable("no case is chosen by --caselist, --include, --exclude and --fraction")
        return cases
