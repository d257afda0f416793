"""That drift between documents and sources is found: each kind is planted into a copy of what is read."""

import os
import tempfile
import unittest

import helping
import check_docs
from abuflib import report


class Planted(unittest.TestCase):
    """Comparisons over documents with a planted difference."""

    def setUp(self):
        self.own = check_docs.text.__wrapped__
        self.changes = {}

        def text(path):
            found = self.own(path)
            for old, new in self.changes.get(path, []):
                self.assertIn(old, found, f"{path} has no such text to change")
                found = found.replace(old, new, 1)
            return found

        self.addCleanup(setattr, check_docs, "text", check_docs.text)
        check_docs.text = text
        self.forget()
        self.addCleanup(self.forget)

    def forget(self):
        for kept in (check_docs.without_blocks, check_docs.manual, check_docs.anchors):
            kept.cache_clear()

    def faults(self, subject):
        told, found = report.Report(), []
        told.line = found.append
        check_docs.SUBJECTS[subject](told)
        return found

    def assert_found(self, subject, path, old, new, *words):
        """A change makes one more fault or several, which tell these words."""
        self.changes = {}
        self.forget()
        before = self.faults(subject)
        self.changes = {path: [(old, new)]}
        self.forget()
        more = [fault for fault in self.faults(subject) if fault not in before]
        self.assertTrue(more, f"{path}: {old} -> {new} isn't found")
        for word in words:
            self.assertIn(word, " ".join(more))

    def test_options(self):
        for path, old, new in (
                ("docs/FORMATS.md", "| `--threads` | one", "| `--thread` | one"),
                ("docs/FORMATS.md", "the output doesn't depend on it | `4` |", "the output doesn't depend on it | `8` |"),
                ("docs/FORMATS.md", "`turn`, `move`, `focal`", "`move`, `turn`, `focal`"),
                ("docs/abuf.1", "The default is 0.125.", "The default is 0.25."),
                ("docs/abuf.1", '.BI \\-\\-maxval " V"', '.BI \\-\\-maximum " V"')):
            self.assert_found("options", path, old, new)

    def test_limits(self):
        self.assert_found("limits", "docs/FORMATS.md", "| threads | 64 |", "| threads | 65 |", "threads")
        self.assert_found("limits", "docs/FORMATS.md", "| images of a sequence | 4096 |", "| images of a sequence | 4095 |")
        self.assert_found("limits", "docs/abuf.1", "at most 1048576 points", "at most 1048580 points", "1048580")
        self.assert_found("limits", "crates/abuf_num/src/limits.rt", "MAX_NODES: u32 = 8388608", "MAX_NODES: u32 = 16777216", "MAX_NODES")

    def test_texts(self):
        for path, old, new in (
                ("docs/FORMATS.md", "| 6 | `read fault` |", "| 6 | `read failure` |"),
                ("docs/FORMATS.md", "| 9 | `path missing` |", "| 4 | `path missing` |"),
                ("docs/FORMATS.md", "| `no material` | | `Kd`, `d` |", "| `no material` | `Kd` | |"),
                ("docs/FORMATS.md", "| `bad turn` | one", "| `bad quaternion` | one"),
                ("docs/abuf.1", "B scene too long", "B scene is too long"),
                ("docs/abuf.1", ".B bad index", ".B wrong index"),
                ("crates/abuf_top/specs/Refusals.antt", 'codes "library " ++ decimal k ++ codes " missing"',
                 'codes "library " ++ decimal k ++ codes " is missing"')):
            self.assert_found("texts", path, old, new)

    def test_samples(self):
        self.assert_found("samples", "docs/FORMATS.md", "(-2,-6) (6,-2)", "(6,-2) (-2,-6)", "pattern of 4")
        self.assert_found("samples", "docs/FORMATS.md", "`curv2`, ", "", "curv2")

    def test_crates(self):
        self.assert_found("crates", "docs/PROOFS.md", "| `abuf_peel` |", "| `abuf_layers` |", "abuf_peel")
        self.assert_found("crates", "docs/ARCHITECTURE.md", "| `abuf_draw` | num, raster, frame |", "| `abuf_draw` | num, raster |", "frame")

    def test_edits(self):
        self.assert_found("edits", "docs/WRONG-BODIES.md", "| floor truncates |", "| floor is cut off |", "floor truncates")
        self.assert_found("edits", "docs/CONTRIBUTING.md", "band_sums(rt, alloc, &primitives, &target, band)?;",
                          "band_sums(rt, alloc, &primitives, &target, 0)?;")

    def test_edits_that_are_never_dropped(self):
        path = "docs/DECISIONS.md"
        self.assert_found("edits", path, "`mean_of_the_masks`", "`mean_of_masks`", "mean_of_masks", "never dropped")
        self.assert_found("edits", path, "| `abuf_scene` | `missing_material_white` |", "| `abuf_obj` | `missing_material_white` |",
                          "never dropped")
        self.changes = {}
        self.forget()
        own, edit = check_docs.files, "crates/abuf_frame/must-fail/count_of_zero.edit"
        self.assertIn(edit, own())
        self.addCleanup(setattr, check_docs, "files", own)
        check_docs.files = lambda: [name for name in own() if name != edit]
        told = [fault for fault in self.faults("edits") if "never dropped" in fault]
        self.assertEqual(len(told), 1, told)
        self.assertIn("count_of_zero", told[0])

    def test_links(self):
        self.assert_found("links", "README.md", "(docs/FORMATS.md)", "(docs/FORMAT.md)", "leads nowhere")
        self.assert_found("links", "docs/FORMATS.md", "(#how-a-command-line-is-read)", "(#how-a-command-is-read)", "no such heading")

    def test_names(self):
        self.assert_found("names", "docs/PROOFS.md", "`abuf_top/specs/Verdict.antt`", "`abuf_top/specs/Verdicts.antt`", "Verdicts.antt")
        self.assert_found("names", "docs/CONTRIBUTING.md", "`is_beneath` in", "`is_under` in", "is_under")
        self.assert_found("names", "docs/CONTRIBUTING.md", "`full_text`", "`no_such_name`", "no_such_name")


class Parts(unittest.TestCase):
    def test_slugs(self):
        self.assertEqual(check_docs.slug("What is `proved`, and how?"), "what-is-proved-and-how")
        self.assertEqual(check_docs.slug("[A link](b.md) first"), "a-link-first")

    def test_rows(self):
        self.assertEqual(check_docs.rows("| a | b |\n|---|---:|\n| `x` | 1 \\| 2 |\ntext\n"), [["`x`", "1 \\| 2"]])

    def test_shown_commands(self):
        self.assertEqual(check_docs.shown("$ a 1\nout\n$ b\nmore\nand more\n"), [("a 1", "out\n"), ("b", "more\nand more\n")])

    def test_which_blocks_are_commands(self):
        for block in ("../abuf render < a.obj\n", "abuf demo 1\n", "for s in 1 2; do\n  x\ndone\n", "pamfile a.pam\n", "look='--size 4x4'\n"):
            self.assertTrue(check_docs.is_typed(block), block)
        for block in ("rt ci\n", "v 1 2 3\n", "newmtl red\n", "cp -r examples /tmp/scenes\n", "sed 1d model.obj\n", "# from the front\n"):
            self.assertFalse(check_docs.is_typed(block), block)

    @helping.needs_abuf
    def test_a_command_that_prints_something_else(self):
        told, found = report.Report(), []
        told.line = found.append
        with tempfile.TemporaryDirectory() as folder:
            place = check_docs.Place(os.path.join(folder, "top"), helping.abuf())
            check_docs.check_command(told, place, "A.md", "", "abuf demo 1 --size 1x1", "triangles 2\n")
            check_docs.check_command(told, place, "A.md", "", "abuf demo 0")
            check_docs.check_command(told, place, "A.md", "", "abuf render < films.obj | tail -c 1 | wc -c", "1\n")
        self.assertEqual((told.passed, told.failed), (1, 2), found)


if __name__ == "__main__":
    unittest.main()
