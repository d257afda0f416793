"""The diagrams: that they show what is so, fit into a page, and are those of docs/pictures."""

import os
import re
import tempfile
import unittest
import xml.etree.ElementTree as ElementTree
from unittest import mock

import browser
import diagrams
import helping
import reference
from abuflib.report import Fault

SVG = "{http://www.w3.org/2000/svg}"


def drawn(name):
    return diagrams.DIAGRAMS[name]()


def texts(name):
    """The texts of a diagram, in their order."""
    return ["".join(element.itertext()) for element in ElementTree.fromstring(drawn(name)).iter(SVG + "text")]


class Files(unittest.TestCase):
    def test_committed_files_are_what_is_drawn(self):
        done = helping.run("diagrams.py", "--check")
        self.assertEqual((done.returncode, done.stdout), (0, b"diagrams: 7 diagrams, 0 failed\n"))

    def test_drawing_and_checking(self):
        with tempfile.TemporaryDirectory() as folder:
            self.assertEqual(helping.call(diagrams, "--check", "--folder", folder, folder=folder).returncode, 1)
            self.assertEqual(helping.call(diagrams, "--folder", folder, folder=folder).returncode, 0)
            self.assertEqual(sorted(os.listdir(folder)), sorted(f"{name}.svg" for name in diagrams.DIAGRAMS))
            self.assertEqual(helping.call(diagrams, "--check", "--folder", folder, folder=folder).returncode, 0)
            with open(os.path.join(folder, "frame.svg"), "a", encoding="utf-8") as file:
                file.write("\n")
            os.remove(os.path.join(folder, "words.svg"))
            done = helping.call(diagrams, "--check", "--folder", folder, folder=folder)
            self.assertEqual((done.returncode, done.stdout.decode().splitlines()), (1, [
                "WRONG frame.svg: isn't what diagrams.py draws", "WRONG words.svg: isn't there", "diagrams: 7 diagrams, 2 failed"]))

    def test_a_folder_that_is_missing(self):
        done = helping.run("diagrams.py", "--folder", "/no/such/folder")
        self.assertEqual((done.returncode, done.stderr.count(b"\n")), (2, 1))

    def test_each_is_small_and_stands_alone(self):
        for name in diagrams.DIAGRAMS:
            text = drawn(name)
            self.assertLess(len(text.encode()), diagrams.MOST_BYTES, name)
            self.assertNotRegex(text.replace('xmlns="http', ""), r"https?:|@import|href|<script|<image", name)
            fonts = set(re.findall(r"font(?:-family)?:(?:\d+px )?([^;}]+)", text))
            self.assertTrue({"sans-serif"} <= fonts <= {"sans-serif", "monospace"}, name)
            self.assertIn("prefers-color-scheme:dark", text)

    def test_the_documents_show_each(self):
        pages = b"".join(helping.read(os.path.join(helping.TOP, *path)) for path in (("README.md",), ("docs", "ARCHITECTURE.md"))).decode()
        self.assertEqual(sorted(re.findall(r"!\[[^\]]+\]\((?:docs/)?pictures/(\w+)\.svg\)", pages)), sorted(diagrams.DIAGRAMS))


class Pipeline(unittest.TestCase):
    def test_each_crate_is_drawn_once(self):
        crates = diagrams.crates_of(helping.read(os.path.join(helping.TOP, "crates.txt")).decode())
        self.assertEqual(len(crates), 28)
        for crate in crates:
            self.assertEqual(sum(crate == text or text.startswith(crate + ":") for text in texts("pipeline")), 1, crate)

    def test_a_crate_that_is_missing_or_new(self):
        crates = diagrams.drawn_crates()
        diagrams.check_crates("".join(f"{crate}:\n" for crate in crates))
        for changed, odd in ((crates[1:], crates[0]), ([*crates, "abuf_other"], "abuf_other")):
            with self.assertRaisesRegex(Fault, odd):
                diagrams.check_crates("".join(f"{crate}:\n" for crate in changed))

    def test_what_flows_goes_downwards(self):
        rows = {box.crate: box.row for box in diagrams.WAY}
        for start, end in diagrams.FLOWS:
            self.assertLess(rows[start], rows[end])


class Frames(unittest.TestCase):
    def test_places_of_words(self):
        """Those of abuf_frame/specs/Words.antt."""
        frame = diagrams.Frame(4, 6)
        self.assertEqual(len(frame.words), 1 + 4 + 2 * 6)
        self.assertEqual([frame.head(0), frame.payload(0), frame.next(0), frame.payload(5), frame.next(5)], [1, 5, 6, 15, 16])
        self.assertEqual(frame.words, [0] * 5 + [0, 2 ** 64 - 1] * 6)

    def test_each_step_changes_its_word(self):
        frame = diagrams.Frame(4, 6)
        frame.insert(2, 3)
        words = list(frame.words)
        states = frame.insert(2, 65548)
        self.assertEqual([(state.stage, state.step) for state in states],
                         [("Claimed", "claim"), ("Filled", "fill"), ("Swapped", "swap"), ("Linked", "link")])
        for state, place, old, new in zip(states, (0, 7, 3, 8), (1, 0, 1, 2 ** 64 - 1), (2, 65548, 2, 1)):
            self.assertEqual([i for i, word in enumerate(state.words) if word != words[i]], [place])
            self.assertEqual((words[place], state.words[place]), (old, new))
            words = state.words

    def test_a_number_without_a_node_is_lost(self):
        frame = diagrams.Frame(1, 1)
        frame.insert(0, 7)
        words = list(frame.words)
        states = frame.insert(0, 8)
        self.assertEqual([(state.stage, state.step) for state in states], [("Lost", "claim")])
        self.assertEqual(frame.words, [2, *words[1:]])

    def test_lists_have_what_was_drawn(self):
        frame = diagrams.Frame(diagrams.PIXELS, diagrams.NODES)
        for pixel, prim, mask in diagrams.DRAWN:
            frame.insert(pixel, diagrams.fragment_word(prim, mask))
        for pixel in range(diagrams.PIXELS):
            self.assertEqual(frame.list_of(pixel), [n for n, drawn in enumerate(diagrams.DRAWN) if drawn[0] == pixel][::-1])


class Tiles(unittest.TestCase):
    def setUp(self):
        a, b, c = diagrams.CORNERS
        area = reference.edge(a, b, c)
        self.triangle = reference.Primitive((a, b, c) if area > 0 else (a, c, b), abs(area), None)

    def test_masks_are_those_of_the_definition(self):
        box = diagrams.box_around()
        around = diagrams.Span(box.x - 2, box.y - 2, box.w + 4, box.h + 4)
        inside = set(diagrams.pixels_of(box))
        for x, y in diagrams.pixels_of(around):
            mask = sum(2 ** k for k, s in enumerate(diagrams.samples_of(x, y)) if reference.covers(self.triangle, s))
            self.assertEqual(diagrams.mask_at(x, y), mask)
            self.assertTrue(mask == 0 or (x, y) in inside)

    def test_tiles_are_the_box_and_have_their_case(self):
        box = diagrams.box_around()
        tiles = diagrams.tiles_of(box)
        pixels = [pixel for tile in tiles for pixel in diagrams.pixels_of(tile)]
        self.assertEqual(sorted(pixels), sorted(diagrams.pixels_of(box)))
        cases = [diagrams.tile_case(tile) for tile in tiles]
        self.assertEqual((set(cases), cases[0]), ({"nothing", "everything", "open"}, "open"))
        for tile, case in zip(tiles, cases):
            masks = {diagrams.mask_at(x, y) for x, y in diagrams.pixels_of(tile)}
            self.assertTrue(max(tile.w, tile.h) <= 8)
            if case != "open":
                self.assertEqual(masks, {0} if case == "nothing" else {15})

    def test_edges_that_are_neither_left_nor_top_start_with_1_less(self):
        self.assertEqual(diagrams.edge_value((0, 0), (256, 0), (128, 0)), 0)
        self.assertEqual(diagrams.edge_value((256, 0), (0, 0), (128, 0)), -1)
        self.assertEqual(diagrams.edge_value((0, 256), (0, 0), (0, 128)), 0)
        self.assertEqual(diagrams.edge_value((0, 0), (0, 256), (0, 128)), -1)


class Samples(unittest.TestCase):
    def test_fields_have_the_bits_of_the_words(self):
        for fields in (diagrams.FRAGMENT_FIELDS, diagrams.SAMPLE_FIELDS):
            self.assertEqual(sum(field.bits for field in fields), 64)
        self.assertEqual(diagrams.fragment_word(2 ** 24 - 1, 0), sum(2 ** k for k in range(16, 40)))
        self.assertEqual(diagrams.depth_word(2 ** 24 - 1, 0), sum(2 ** k for k in range(24, 48)))

    def test_numbers_are_those_of_the_readme(self):
        readme = helping.read(os.path.join(helping.TOP, "README.md")).decode()
        shown = diagrams.example()
        self.assertIn(shown.report, readme)
        there = " ".join(texts("order"))
        for k in diagrams.order_samples(shown):
            found = re.search(rf"(?m)^sample {k} (.*)$", readme)
            for prim, depth in re.findall(r"prim (\d+) depth (\d+)", found.group(1)):
                self.assertEqual(there.count(f"prim {prim}, key {depth}"), 2)
                self.assertIn(str(int(depth) * 2 ** 24 + int(prim)), there)
        self.assertEqual(sum("exchanged" in text for text in texts("order")), 1)

    def test_the_nearer_part_of_the_pixel(self):
        """Each sample lies in the part of the primitive that is nearest there."""
        shown = diagrams.example()
        x, y = shown.pixel
        square = [(256.0 * (x + right), 256.0 * (y + down)) for right, down in ((0, 0), (1, 0), (1, 1), (0, 1))]
        part = diagrams.nearer_part(shown.primitives[2], shown.primitives[1], square)
        for covering, offset in zip(shown.samples, reference.OFFSETS[4]):
            s = (256 * x + 128 + 16 * offset[0], 256 * y + 128 + 16 * offset[1])
            inside = all(reference.edge(start, end, s) >= 0 for start, end in zip(part, part[1:] + part[:1]))
            self.assertEqual(inside, covering[-1][1] == 2)

    def test_another_readme(self):
        for text, fault in (("", "no example"), (None, "other numbers")):
            readme = helping.read(os.path.join(helping.TOP, "README.md")).decode()
            text = readme.replace("depth 740260", "depth 740261") if text is None else text
            with tempfile.TemporaryDirectory() as folder:
                helping.write(os.path.join(folder, "README.md"), text.encode())
                with mock.patch.object(diagrams, "TOP", folder), self.assertRaisesRegex(Fault, fault):
                    diagrams.example()


class Measured(unittest.TestCase):
    def test_bars_are_as_long_as_the_times(self):
        measured, threads = diagrams.times_measured()
        self.assertEqual(measured[0].name, "abuf")
        self.assertEqual(measured, sorted(measured, key=lambda it: it.alone))
        bars = [element for element in ElementTree.fromstring(drawn("times")).iter(SVG + "rect")
                if float(element.get("x", 0)) == diagrams.BARS[0]]
        self.assertEqual(len(bars), 2 * len(measured))
        wide = diagrams.BARS[1] - diagrams.BARS[0]
        for bar, seconds in zip(bars, (seconds for it in measured for seconds in (it.alone, it.shared))):
            self.assertAlmostEqual(float(bar.get("width")), max(2, wide * seconds / measured[-1].alone), delta=0.1)
        self.assertIn(f"{threads} threads", texts("times"))


@unittest.skipIf(browser.chromium() is None, "Chromium isn't installed (Debian's package chromium)")
class Shown(unittest.TestCase):
    def test_no_text_is_cut_off_or_lies_over_another(self):
        with tempfile.TemporaryDirectory() as folder, browser.Browser() as page:
            for name in diagrams.DIAGRAMS:
                path = helping.write(os.path.join(folder, f"{name}.svg"), drawn(name).encode())
                self.assertEqual(page.texts_of(path), (texts(name), []), name)


if __name__ == "__main__":
    unittest.main()
