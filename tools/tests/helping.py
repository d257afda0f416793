"""What several tests need."""

import contextlib
import io
import os
import subprocess
import sys
import unittest
from types import ModuleType
from typing import Callable, TypeVar

TOOLS = os.path.dirname(os.path.dirname(os.path.abspath(__file__)))
TOP = os.path.dirname(TOOLS)
EXAMPLES = os.path.join(TOP, "examples")
if TOOLS not in sys.path:
    sys.path.insert(0, TOOLS)

from abuflib import program, report  # noqa: E402
from abuflib.report import Fault  # noqa: E402

Test = TypeVar("Test", bound=Callable[..., object])


def abuf() -> program.Program | None:
    """The program, or None where it isn't built."""
    try:
        return program.find(tunables=program.launcher_tunables())
    except Fault:
        return None


def needs_abuf(test: Test) -> Test:
    return unittest.skipIf(abuf() is None, "there is no abuf: ./abuf builds it, or ABUF names one")(test)  # type: ignore[return-value]


def run(script: str, *words: str, data: bytes = b"", folder: str | None = None, **variables: str) \
        -> "subprocess.CompletedProcess[bytes]":
    """Runs a script of the tools."""
    path = script if os.path.isabs(script) else os.path.join(TOOLS, script)
    return subprocess.run([sys.executable, path, *words], input=data, capture_output=True, cwd=folder, timeout=120,
                          env={**os.environ, **variables})


def call(module: ModuleType, *words: str, folder: str) -> "subprocess.CompletedProcess[bytes]":
    """Runs a script in this process, which is quicker, as if it were started in a folder."""
    out, err = io.StringIO(), io.StringIO()
    before = os.getcwd(), sys.argv
    os.chdir(folder)
    sys.argv = [os.path.basename(str(module.__file__)), *words]
    try:
        with contextlib.redirect_stdout(out), contextlib.redirect_stderr(err):
            report.end(module.main)
    except SystemExit as end:
        return subprocess.CompletedProcess(words, int(end.code or 0), out.getvalue().encode(), err.getvalue().encode())
    finally:
        os.chdir(before[0])
        sys.argv = before[1]


def read(path: str) -> bytes:
    with open(path, "rb") as file:
        return file.read()


def write(path: str, data: bytes) -> str:
    with open(path, "wb") as file:
        file.write(data)
    return path
