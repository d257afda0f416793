#!/usr/bin/env python3
"""Runs the tests of the tools: that they compile, that their types fit, and tools/tests.

    run.py [--abuf PATH] [NAME..]

    run.py test_pam test_fix_obj

The classes of tests are run side by side, as many at a time as there are processors. What fails is told, and a last line counts.
What isn't installed is skipped, and said in a line: the type checker mypy, Chromium, and the program where ./abuf hasn't built it
yet. The status is 0, or 1 where a test failed.
"""

import compileall
import concurrent.futures
import io
import os
import shutil
import subprocess
import sys
import unittest
from typing import Iterator, NamedTuple

TESTS = os.path.dirname(os.path.abspath(__file__))
TOOLS = os.path.dirname(TESTS)
TOP = os.path.dirname(TOOLS)
sys.path[:0] = [TOOLS, TESTS]

from abuflib import program, report  # noqa: E402

FOLDERS = ("tools", "bench", "conformance", "examples")


def check_compiles() -> str | None:
    """What doesn't compile."""
    out, before = io.StringIO(), sys.stdout
    sys.stdout = out
    try:
        good = all([compileall.compile_dir(os.path.join(TOP, folder), quiet=1, force=False) for folder in FOLDERS])
    finally:
        sys.stdout = before
    return None if good else out.getvalue().strip()


def check_types() -> str | None:
    """What mypy finds: abuflib and the newer tools in full, the others as far as they have types."""
    done = subprocess.run(["mypy", "--config-file", os.path.join(TOOLS, "tests", "mypy.ini"), "."], cwd=TOOLS,
                          capture_output=True, text=True)
    return None if done.returncode == 0 else (done.stdout + done.stderr).strip()


class Outcome(NamedTuple):
    """How the tests of a class came out."""

    passed: int
    failed: list[tuple[str, str]]  # the name of each, and what is told
    skipped: list[str]  # why


def classes_of(tests: unittest.TestSuite) -> Iterator[str]:
    """The names of the classes of the tests, in their order; a module that can't be loaded stands for itself."""
    for test in tests:
        if isinstance(test, unittest.TestSuite):
            yield from classes_of(test)
        elif isinstance(test, unittest.loader._FailedTest):  # type: ignore[attr-defined]
            yield test._testMethodName
        else:
            yield f"{type(test).__module__}.{type(test).__qualname__}"


def run_class(name: str) -> Outcome:
    """Runs the tests of a class, or of what is named so."""
    tests = unittest.TestLoader().loadTestsFromName(name)
    results = unittest.TextTestRunner(stream=io.StringIO(), buffer=True).run(tests)
    failed = [(test.id(), text.rstrip()) for test, text in results.failures + results.errors]
    skipped = [why for _, why in results.skipped]
    return Outcome(results.testsRun - len(failed) - len(skipped), failed, skipped)


def run_all(names: list[str]) -> list[Outcome]:
    """Runs the tests of these modules, or of all."""
    loader = unittest.TestLoader()
    tests = loader.loadTestsFromNames(names) if names else loader.discover(TESTS, top_level_dir=TESTS)
    with concurrent.futures.ProcessPoolExecutor(os.cpu_count()) as workers:
        return list(workers.map(run_class, dict.fromkeys(classes_of(tests))))


def main() -> int:
    parser = report.words(__doc__)
    parser.add_argument("names", nargs="*", metavar="NAME", help="the modules of these tests alone")
    program.add_option(parser)
    given = parser.parse_args()
    if given.abuf:
        os.environ[program.VARIABLE] = program.path_of(given.abuf)
    told = report.Report("tests of the tools")
    if not given.names:
        told.add("compiling", check_compiles())
        if shutil.which("mypy"):
            told.add("types", check_types())
        else:
            print("tests of the tools: types aren't checked; Debian's package mypy does it")
    outcomes = run_all(given.names)
    for outcome in outcomes:
        told.passed += outcome.passed
        for name, text in outcome.failed:
            told.add(name, "\n" + text)
    skipped = [why for outcome in outcomes for why in outcome.skipped]
    for why in dict.fromkeys(skipped):
        print(f"tests of the tools: {skipped.count(why)} skipped, since {why}")
    print(told.total(), flush=True)
    return told.status()


if __name__ == "__main__":
    report.end(main)
