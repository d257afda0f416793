"""Finding and running the program."""

import os
import tempfile
import unittest

import helping
from abuflib import program
from abuflib.report import Fault

LARGE = "glibc.malloc.hugetlb=1"


class Finding(unittest.TestCase):
    def setUp(self):
        self.folder = tempfile.TemporaryDirectory()
        self.addCleanup(self.folder.cleanup)
        self.before = {name: os.environ.get(name) for name in (program.VARIABLE, program.TUNABLES)}
        self.addCleanup(self.restore)

    def restore(self):
        for name, value in self.before.items():
            os.environ.pop(name, None)
            if value is not None:
                os.environ[name] = value

    def script(self, name, text):
        path = helping.write(os.path.join(self.folder.name, name), b"#!/bin/sh\n" + text)
        os.chmod(path, 0o755)
        return path

    def test_the_option_comes_before_the_variable(self):
        one, other = self.script("one", b""), self.script("other", b"")
        os.environ[program.VARIABLE] = other
        self.assertEqual(program.find(one).path, one)
        self.assertEqual(program.find().path, other)

    def test_a_program_that_is_missing(self):
        os.environ[program.VARIABLE] = os.path.join(self.folder.name, "none")
        with self.assertRaisesRegex(Fault, r"^there is no program \S+none: name another by --abuf or ABUF$"):
            program.find()
        with self.assertRaises(Fault):
            program.find(self.folder.name)  # a folder can be entered, and isn't a program

    def test_the_environment_has_no_say_in_the_tunables(self):
        path = self.script("tell", b'printf "<%s>" "${GLIBC_TUNABLES-unset}"\n')
        os.environ[program.TUNABLES] = LARGE
        self.assertEqual(program.find(path).output([]), b"<>")
        self.assertEqual(program.find(path, "a.b=1").output([]), b"<a.b=1>")

    def test_the_launcher_keeps_no_tunables_where_none_are_asked_for(self):
        line = next(line for line in helping.read(program.LAUNCHER).splitlines() if line.startswith(b': "${GLIBC_TUNABLES='))
        path = self.script("launch", line + b'\nexport GLIBC_TUNABLES\nprintf "<%s>" "$GLIBC_TUNABLES"\n')
        self.assertEqual(program.find(path).output([]), b"<>")
        wanted = program.launcher_tunables()
        self.assertIn("glibc.malloc.", wanted)
        self.assertEqual(program.find(path, wanted).output([]), b"<%b>" % wanted.encode())

    def test_a_run(self):
        path = self.script("run", b'cat; echo "$1" >&2; pwd >&2; exit 3\n')
        found = program.find(path).run(["a b"], b"scene", self.folder.name)
        self.assertEqual((found.status, found.out), (3, b"scene"))
        self.assertEqual(found.err.decode(), f"a b\n{os.path.realpath(self.folder.name)}\n")
        with self.assertRaisesRegex(Fault, "^run: a b"):
            program.find(path).output(["a b"])

    def test_a_run_that_takes_too_long(self):
        found = program.find(self.script("slow", b"exec sleep 60\n")).run([], limit=0.2)
        self.assertEqual(found, (None, b"", b""))
        self.assertEqual(found.text(), "it didn't end in time")

    def test_little_memory(self):
        path = self.script("memory", b"ulimit -v\n")
        self.assertEqual(program.find(path).run([], memory=65536).out, b"65536\n")

    @helping.needs_abuf
    def test_little_memory_where_the_environment_asks_for_large_pages(self):
        os.environ[program.TUNABLES] = program.launcher_tunables()
        plain = program.find(helping.abuf().path)
        for memory in (3072, 4096, 6144):
            found = plain.run(["render", "--size", "4x4", "--nodes", "16"], memory=memory)
            self.assertIn((found.status, found.err), [(0, b""), (8, b"no memory\n")], memory)

    def test_a_tool_that_isnt_installed(self):
        with self.assertRaisesRegex(Fault, "^no-such-tool isn't there: install Debian's package tools$"):
            program.run_tool(["no-such-tool"], package="tools")


if __name__ == "__main__":
    unittest.main()
