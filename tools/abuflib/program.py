"""Finding and running abuf.

The program is that of the option --abuf, or of the variable ABUF, or crates/abuf/out/abuf, which ./abuf proves and builds. It is
started with the tunables of the C library that are asked for, those of the launcher or none, whatever the environment has: with
large pages for every block of memory, a check with little memory tells something else.
"""

import argparse
import os
import re
import resource
import shutil
import subprocess
from dataclasses import dataclass, field
from typing import IO, NamedTuple, Sequence

from abuflib.report import Fault

TOP = os.path.dirname(os.path.dirname(os.path.dirname(os.path.abspath(__file__))))
TOOLS = os.path.join(TOP, "tools")
EXAMPLES = os.path.join(TOP, "examples")
LAUNCHER = os.path.join(TOP, "abuf")
BUILT = os.path.join(TOP, "crates", "abuf", "out", "abuf")
VARIABLE = "ABUF"
TUNABLES = "GLIBC_TUNABLES"
LONGEST = 600.0  # seconds that a run may take, unless a script says otherwise

Word = str | bytes


class Answer(NamedTuple):
    """What a run gives. The status is None where it didn't end in time."""

    status: int | None
    out: bytes
    err: bytes

    def text(self) -> str:
        """The message, in one line."""
        if self.status is None:
            return "it didn't end in time"
        return self.err.decode(errors="replace").strip() or f"status {self.status}"


def launcher_tunables() -> str:
    """The tunables with which ./abuf starts the program."""
    with open(LAUNCHER, encoding="utf-8") as file:
        found = re.search(r'GLIBC_TUNABLES=([^}"]+)', file.read())
    if found is None:
        raise Fault("./abuf names no GLIBC_TUNABLES")
    return found.group(1)


def environment(tunables: str = "", **more: str) -> dict[str, str]:
    """The variables of a program with these tunables and no others. A launcher leaves an empty variable as it is."""
    return {**os.environ, TUNABLES: tunables, **more}


@dataclass(frozen=True)
class Program:
    """A program that takes the words of abuf, and the tunables with which it is started."""

    command: tuple[str, ...]
    tunables: str = ""
    variables: dict[str, str] = field(default_factory=dict)

    @property
    def path(self) -> str:
        return self.command[-1]

    def environment(self) -> dict[str, str]:
        return environment(self.tunables, **self.variables)

    def run(self, words: Sequence[Word], scene: bytes | IO[bytes] = b"", folder: str | None = None,
            limit: float = LONGEST, out: int | IO[bytes] = subprocess.PIPE, memory: int | None = None) -> Answer:
        """Runs the program in a folder, over the bytes of a scene or an open file; memory is in KiB."""
        given: dict[str, object] = {"input": scene} if isinstance(scene, bytes) else {"stdin": scene}
        hold = None if memory is None else lambda: resource.setrlimit(resource.RLIMIT_AS, (1024 * memory, 1024 * memory))
        try:
            done = subprocess.run([*self.command, *words], cwd=folder, stdout=out, stderr=subprocess.PIPE, timeout=limit,
                                  env=self.environment(), preexec_fn=hold, **given)  # type: ignore[call-overload]
        except subprocess.TimeoutExpired:
            return Answer(None, b"", b"")
        return Answer(done.returncode, done.stdout or b"", done.stderr)

    def output(self, words: Sequence[Word], scene: bytes = b"", folder: str | None = None, limit: float = LONGEST) -> bytes:
        """What the program writes; a Fault where its status isn't 0."""
        answer = self.run(words, scene, folder, limit)
        if answer.status != 0:
            raise Fault(f"{os.path.basename(self.path)}: {answer.text()}")
        return answer.out


def add_option(parser: argparse.ArgumentParser) -> None:
    """The one option by which every script takes another program."""
    parser.add_argument("--abuf", metavar="PATH",
                        help="the program (the variable ABUF, or crates/abuf/out/abuf, which ./abuf builds)")


def path_of(given: str | None) -> str:
    """The path of the program that is meant, or a Fault where it isn't there."""
    wanted = given or os.environ.get(VARIABLE) or BUILT
    found = os.path.abspath(wanted) if os.sep in wanted or os.path.exists(wanted) else shutil.which(wanted)
    if found and os.path.isfile(found) and os.access(found, os.X_OK):
        return found
    fix = "./abuf builds it; --abuf or ABUF names another" if wanted == BUILT else "name another by --abuf or ABUF"
    raise Fault(f"there is no program {os.path.relpath(wanted) if os.sep in wanted else wanted}: {fix}")


def find(given: str | None = None, tunables: str = "") -> Program:
    """The program that is meant, to be started with these tunables."""
    return Program((path_of(given),), tunables)


def run_tool(command: Sequence[str], data: bytes = b"", package: str = "", folder: str | None = None,
             limit: float = LONGEST) -> bytes:
    """What a program of the system writes, or a Fault that names its Debian package."""
    try:
        done = subprocess.run(command, input=data, cwd=folder, capture_output=True, timeout=limit)
    except FileNotFoundError:
        raise Fault(f"{command[0]} isn't there: install Debian's package {package or command[0]}") from None
    except subprocess.TimeoutExpired:
        raise Fault(f"{command[0]} didn't end within {limit:.0f} seconds") from None
    if done.returncode != 0:
        raise Fault(f"{os.path.basename(command[0])}: {done.stderr.decode(errors='replace').strip()}")
    return done.stdout
