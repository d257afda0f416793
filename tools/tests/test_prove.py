"""The order in which crates are proved, how the processors are shared among them, and what is kept."""

import os
import tempfile
import unittest
from unittest import mock

import helping
import prove
from abuflib.program import TOP

CRATES = {"num": [], "text": ["num", "bstr"], "raster": ["num"], "view": ["text", "raster"]}


class Crates(unittest.TestCase):
    def test_lines_of_crates_txt(self):
        text = "# What stands on what.\n\nnum:\ntext: num bstr\nview tests_may=Threads: text  # and a remark\n"
        crates = prove.read_crates(text)
        self.assertEqual(crates, {"num": [], "text": ["num", "bstr"], "view": ["text"]})
        self.assertEqual(prove.own_below(crates, "text"), ["num"])

    def test_all_below(self):
        self.assertEqual(prove.all_below(CRATES, "view"), {"num", "text", "raster"})
        self.assertEqual(prove.all_below(CRATES, "num"), set())

    def test_the_longest_chain(self):
        lines = {"num": 1, "text": 10, "raster": 100, "view": 1000}
        self.assertEqual(prove.chains(CRATES, lines), {"num": 1101, "text": 1010, "raster": 1100, "view": 1000})

    def test_those_of_the_repository(self):
        with open(os.path.join(TOP, "crates.txt"), encoding="utf-8") as file:
            crates = prove.read_crates(file.read())
        self.assertEqual(prove.all_below(crates, prove.PROGRAM), set(crates) - {prove.PROGRAM, *prove.OTHERS})
        self.assertGreater(prove.count_lines("abuf_raster"), prove.count_lines("abuf_pam"))


class Sharing(unittest.TestCase):
    AMPLE = 100e9

    def test_a_crate_alone_takes_what_is_idle(self):
        for idle, taken in [(1, 1), (3, 3), (4, 4), (16, 4)]:
            self.assertEqual(prove.processors_for(1, idle, self.AMPLE), taken)

    def test_the_first_of_several_takes_half(self):
        for idle, taken in [(1, 1), (2, 1), (3, 2), (4, 2), (16, 4)]:
            self.assertEqual(prove.processors_for(3, idle, self.AMPLE), taken)

    def test_none_is_idle(self):
        self.assertEqual(prove.processors_for(3, 0, self.AMPLE), 0)

    def test_little_memory(self):
        self.assertEqual(prove.processors_for(1, 4, prove.MEMORY - 1), 0)
        self.assertEqual(prove.processors_for(1, 4, prove.MEMORY), 1)
        self.assertEqual(prove.processors_for(1, 4, prove.memory_of(3)), 3)


class Proving(unittest.TestCase):
    """A repository of three crates and the program, over a toolchain that writes down what it is asked, and makes what it is told to
    if all that it is given is there."""

    RATTLE = """#!/bin/sh
echo "$@" >> "$RATTLE_LOG"
verb=$1 crate= made=
while [ $# -gt 0 ]; do
    case $1 in
    --crate-name) crate=$2 ;;
    --extern) case $2 in std=* | bstr=*) ;; *) [ -e "${2#*=}" ] || exit 3 ;; esac ;;
    -o) made=$2 ;;
    esac
    shift
done
echo "told by $crate"
[ "$crate" = "${RATTLE_FAILS:-}" ] && exit 1
[ "$verb" = check ] || echo made > "$made"
"""
    LINK = """#!/bin/sh
[ -e out/abuf.o ] && echo program > out/abuf
"""
    NAMED = {"num": [], "scene": ["num", "bstr"], "raster": ["num"], "abuf": ["scene", "raster"]}

    def setUp(self):
        folder = tempfile.TemporaryDirectory()
        self.addCleanup(folder.cleanup)
        self.top = folder.name
        self.kit = os.path.join(os.path.realpath(self.top), "kit")
        os.makedirs(os.path.join(self.kit, "bin"))
        for name, text in (("rt", "#!/bin/sh\n"), ("rattle", self.RATTLE), ("rattle-link", self.LINK)):
            os.chmod(helping.write(os.path.join(self.kit, "bin", name), text.encode()), 0o755)
        helping.write(os.path.join(self.kit, "WHAT"), b"a toolchain\n")
        self.write_crates("".join(f"{name}: {' '.join(named)}\n" for name, named in self.NAMED.items()))
        for name in self.NAMED:
            self.write_source(name, "main.rt" if name == "abuf" else "lib.rt")
        self.log = os.path.join(self.top, "log")
        self.enterContext(mock.patch.object(prove, "TOP", self.top))
        self.variables = {"PATH": os.path.join(self.kit, "bin") + os.pathsep + os.environ["PATH"], "RATTLE_LOG": self.log}

    def write_crates(self, text):
        helping.write(os.path.join(self.top, "crates.txt"), text.encode())

    def write_source(self, name, file, text="// Nothing.\n"):
        os.makedirs(os.path.join(self.top, "crates", name, "src"), exist_ok=True)
        helping.write(os.path.join(self.top, "crates", name, "src", file), text.encode())

    def prove(self, *words, **variables):
        helping.write(self.log, b"")
        with mock.patch.dict(os.environ, {**self.variables, **variables}):
            return helping.call(prove, "--processors", "2", *words, folder=self.top)

    def calls(self):
        """The words of each call of the prover."""
        return [it.split() for it in helping.read(self.log).decode().splitlines()]

    def asked(self):
        """Of each call of the prover the crate."""
        return [it[it.index("--crate-name") + 1] for it in self.calls()]

    def test_all_are_proved_lowest_first(self):
        ran = self.prove()
        self.assertEqual(ran.returncode, 0, ran.stderr)
        asked = self.asked()
        self.assertEqual((asked[0], sorted(asked[1:3]), asked[3]), ("num", ["raster", "scene"], "abuf"))
        self.assertEqual([it[it.index("--jobs") + 1] for it in self.calls()], ["2", "1", "1", "2"])
        self.assertTrue(os.path.isfile(os.path.join(self.top, "crates", "abuf", "out", "abuf")))
        self.assertIn("proved abuf, 4 of 4", ran.stderr.decode())

    def test_each_is_proved_over_the_statements_of_those_that_it_names(self):
        self.prove()
        for name, words in zip(self.asked(), self.calls()):
            given = dict(words[at + 1].split("=") for at, it in enumerate(words) if it == "--extern")
            wanted = {it: os.path.join(self.top, "crates", it, "out", "rlib", it + ".rlib") for it in self.NAMED[name]}
            wanted |= {it: os.path.join(self.kit, "rlibs", it + ".rlib") for it in ("std", "bstr") if it == "std" or it in wanted}
            self.assertEqual(given, wanted)
            self.assertEqual("--statements" in words, name != "abuf")

    def test_one_that_fails(self):
        ran = self.prove(RATTLE_FAILS="raster")
        self.assertEqual(ran.returncode, 1)
        self.assertIn("told by raster\nabuf: raster wasn't proved", ran.stderr.decode())
        self.assertNotIn("abuf", self.asked())

    def test_what_was_proved_is_kept(self):
        self.prove(RATTLE_FAILS="abuf")
        self.prove()
        self.assertEqual(self.asked(), ["abuf"])
        ran = self.prove()
        self.assertEqual((ran.returncode, self.asked()), (0, []))

    def test_what_changed_is_proved_anew_with_all_above(self):
        self.prove()
        self.write_source("raster", "lib.rt", "// A line.\n")
        self.prove()
        self.assertEqual(self.asked(), ["raster", "abuf"])
        helping.write(os.path.join(self.kit, "WHAT"), b"another toolchain\n")
        self.prove()
        self.assertEqual(len(self.asked()), 4)

    def test_all_above_are_proved_anew_where_another_tool_took_the_place_of_statements(self):
        self.prove()
        os.remove(os.path.join(self.top, "crates", "raster", "out", "rlib", "sum"))
        self.prove()
        self.assertEqual(self.asked(), ["raster", "abuf"])

    def test_a_program_that_was_removed_is_built_again(self):
        self.prove()
        os.remove(os.path.join(self.top, "crates", "abuf", "out", "abuf"))
        self.prove()
        self.assertEqual(self.asked(), ["abuf"])

    def test_another_program_is_checked(self):
        self.write_crates("num:\nabuf: num\nabuf_watch: num\n")
        self.write_source("abuf_watch", "main.rt")
        ran = self.prove("--all")
        self.assertEqual(ran.returncode, 0, ran.stderr)
        self.assertEqual([it[0] for it in self.calls() if "abuf_watch" in it], ["check"])

    def test_no_toolchain(self):
        ran = self.prove(PATH=os.path.join(self.top, "crates"))
        self.assertEqual(ran.returncode, 2)
        self.assertRegex(ran.stderr.decode(), "there is no rt")


if __name__ == "__main__":
    unittest.main()
