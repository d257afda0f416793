"""What scripts print, and their statuses."""

import contextlib
import io
import os
import re
import subprocess
import unittest
from concurrent.futures import ThreadPoolExecutor

import helping
from abuflib import report
from abuflib.report import Fault

SCRIPTS = ["agree.py", "apng.py", "bands_and_layers.py", "calling.py", "check_docs.py", "compare.py", "completions.py",
           "coverage_check.py", "diagrams.py", "fit.py", "fix_obj.py", "fuzz.py", "lantern.py", "outside.py", "pictures.py", "pieces.py", "prove.py",
           "refused_memory.py", "turntable.py", "view.py", "watch.py", "wrong_bodies.py",
           "../bench/bench.py", "../bench/figures.py", "../bench/growth.py", "../bench/obj_files.py", "../bench/sequences.py",
           "tests/run.py", "tests/browser.py"]
WITH_ABUF = ["bands_and_layers.py", "compare.py", "coverage_check.py", "fuzz.py", "outside.py", "pictures.py", "pieces.py",
             "refused_memory.py", "../bench/bench.py", "../bench/figures.py", "../bench/sequences.py"]


def ended(main):
    """The status of a script, and what it says."""
    err = io.StringIO()
    with contextlib.redirect_stderr(err):
        try:
            report.end(main)
        except SystemExit as end:
            return end.code, err.getvalue()


class Ends(unittest.TestCase):
    def test_statuses(self):
        def fault():
            raise Fault("no such thing")

        def missing():
            open("/no/such/file")

        self.assertEqual(ended(lambda: None), (0, ""))
        self.assertEqual(ended(lambda: report.WRONG), (1, ""))
        status, text = ended(fault)
        self.assertEqual((status, text.split(": ", 1)[1]), (2, "no such thing\n"))
        status, text = ended(missing)
        self.assertEqual((status, text.split(": ", 1)[1]), (2, "/no/such/file: No such file or directory\n"))

    def test_counts(self):
        told, out = report.Report(), io.StringIO()
        with contextlib.redirect_stdout(out):
            told.add("one", None)
            told.add("two", "is three")
            self.assertEqual(told.conclude(), report.WRONG)
        self.assertEqual(out.getvalue().splitlines()[0], "WRONG two: is three")
        self.assertTrue(out.getvalue().endswith(": 2 checks, 1 failed\n"))


def each(scripts, *words):
    """What the scripts answer to the words, two at a time."""
    with ThreadPoolExecutor(2) as pool:
        yield from zip(scripts, pool.map(lambda script: helping.run(script, *words), scripts))


class Scripts(unittest.TestCase):
    def test_all_scripts_are_listed(self):
        modules = {"fuzz_cases.py", "rows.py", "reference.py"}
        there = {name for name in os.listdir(helping.TOOLS) if name.endswith(".py")}
        self.assertEqual(there - modules, {name for name in SCRIPTS if "/" not in name})

    def test_help_shows_an_example(self):
        for script, done in each(SCRIPTS, "--help"):
            self.assertEqual(done.returncode, 0, script)
            name = re.escape(os.path.basename(script))
            self.assertGreaterEqual(len(re.findall(rf"(?m)^    .*{name}", done.stdout.decode())), 2, script)

    def test_help_of_shell_scripts_shows_an_example(self):
        for script in ("install.sh", "unproved.sh", "../examples/draw.sh"):
            done = subprocess.run(["sh", os.path.join(helping.TOOLS, script), "--help"], capture_output=True, text=True)
            self.assertEqual((done.returncode, done.stderr), (0, ""), script)
            self.assertRegex(done.stdout, rf"(?m)^    .*{os.path.basename(script)} ", script)
            self.assertNotIn("set -", done.stdout)

    def test_words_that_arent_understood(self):
        for script, done in each(SCRIPTS, "--no-such-option"):
            self.assertEqual((done.returncode, done.stdout), (2, b""), script)

    def test_a_program_that_is_missing(self):
        for script, done in each(WITH_ABUF, "--abuf", "/no/abuf"):
            self.assertEqual((done.returncode, done.stderr.count(b"\n")), (2, 1), f"{script}: {done.stderr!r}")
            self.assertIn(b"there is no program", done.stderr)


if __name__ == "__main__":
    unittest.main()
