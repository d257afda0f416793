"""The smaller tools: agree, apng, fit, turntable, lantern, compare, fuzz and wrong_bodies."""

import io
import os
import random
import subprocess
import tempfile
import unittest
from types import SimpleNamespace

import helping
import agree
import apng
import compare
import fit
import fuzz
import fuzz_cases
import lantern
import reference
import rows
import turntable
import wrong_bodies
from abuflib import pam, scene
from abuflib.report import Fault

BLACK = pam.Image(2, 2, 255, bytes(12))


def with_pixel(image, x, y, *values):
    pixels = bytearray(image.values)
    start = (y * image.width + x) * image.pixel
    pixels[start:start + image.pixel] = bytes(values)
    return image._replace(values=bytes(pixels))


class Agree(unittest.TestCase):
    def test_what_is_counted(self):
        other = with_pixel(with_pixel(BLACK, 1, 0, 9, 0, 2), 0, 1, 0, 3, 0)
        found = agree.compare(BLACK, other)
        self.assertEqual((found.differing(), found.values, found.greatest), (2, 3, 9))
        self.assertEqual(found.pixels, [0, 9, 3, 0])
        self.assertEqual(found.worst(1), [1])
        self.assertEqual(agree.compare(BLACK, other, allow=3).differing(), 1)
        self.assertAlmostEqual(found.mean, 14 / 12)

    def test_sizes(self):
        with self.assertRaisesRegex(Fault, "the sizes differ"):
            agree.compare(BLACK, pam.Image(1, 4, 255, bytes(12)))

    def test_a_finer_image_is_scaled(self):
        fine = pam.from_numbers(2, 2, 65535, [128, 129, 0] + [0] * 9)
        found = agree.compare(fine, BLACK)
        self.assertEqual((found.a.maxval, found.differing(), found.greatest), (255, 1, 1))

    def test_statuses(self):
        with tempfile.TemporaryDirectory() as folder:
            a = helping.write(os.path.join(folder, "a.pam"), pam.to_pam(BLACK))
            b = helping.write(os.path.join(folder, "b.png"), pam.to_png(with_pixel(BLACK, 1, 1, 5, 5, 5)))
            self.assertEqual(helping.run("agree.py", a, a).returncode, 0)
            where = os.path.join(folder, "where.png")
            done = helping.run("agree.py", a, b, "--picture", where)
            self.assertEqual(done.returncode, 1)
            self.assertIn(b"(1,1): [0, 0, 0] and [5, 5, 5], difference 5", done.stdout)
            self.assertEqual(pam.load(where).at(1, 1), (255, 5, 0))
            self.assertEqual(helping.run("agree.py", a, os.path.join(folder, "c")).returncode, 2)

    def test_a_tie_is_told(self):
        job = reference.job_of(["render", "--size", "4x4"])
        primitives = agree.primitives_of_file(os.path.join(helping.EXAMPLES, "white.obj"), job)
        told = [line for y in range(4) for x in range(4) for line in agree.close_calls(job, primitives, x, y)]
        self.assertIn("sample 0 lies exactly on an edge of prim 0", told)


class Apng(unittest.TestCase):
    def test_the_images_come_back(self):
        for maxval in (255, 65535):
            rng = random.Random(maxval)
            first = pam.Image(6, 5, maxval, rng.randbytes(30 * (3 if maxval == 255 else 6)))
            values = bytearray(first.values)
            values[40:50] = rng.randbytes(10)
            images = [first, first, first._replace(values=bytes(values))]
            self.assertEqual(list(apng.images_of_apng(apng.apng_of(images, 100))), images)
            self.assertEqual(pam.from_png(apng.apng_of([first], 100)), first)
            self.assertNotIn(b"acTL", apng.apng_of([first], 100))

    def test_faults(self):
        for images in ([], [BLACK, pam.Image(1, 1, 255, bytes(3))]):
            with self.assertRaises(Fault):
                apng.apng_of(images, 100)
        self.assertEqual(helping.run("apng.py", data=b"P6").returncode, 2)

    def test_enlarging(self):
        image = with_pixel(BLACK, 1, 0, 1, 2, 3)
        done = helping.run("apng.py", "--enlarge", "3", data=pam.to_pam(image))
        self.assertEqual(pam.from_png(done.stdout), pam.enlarged(image, 3))


class Draw(unittest.TestCase):
    """examples/draw.sh, which draws by the commands in the heads of the examples."""

    def draw(self, *words, status=0):
        with tempfile.TemporaryDirectory() as folder:
            done = subprocess.run(["sh", os.path.join(helping.EXAMPLES, "draw.sh"), *words], capture_output=True, text=True, cwd=folder)
            self.assertEqual(done.returncode, status, done.stderr)
            return {name: pam.load(os.path.join(folder, name)) for name in os.listdir(folder)}, done.stdout + done.stderr

    @helping.needs_abuf
    def test_the_pictures(self):
        for name, wanted in (("panes", ["panes"]), ("crossing", ["crossing-1", "crossing-8"]), ("crossing-8", ["crossing-8"])):
            images, told = self.draw("--abuf", helping.abuf().path, name)
            self.assertEqual(sorted(images), [one + ".png" for one in wanted])
            for file, image in images.items():
                self.assertEqual(image, pam.load(os.path.join(helping.TOP, "docs", "pictures", file)), file)
            self.assertIn("abuf render --size", told)

    def test_what_isnt_there(self):
        for words in (["--abuf", "/bin/true", "nothing"], ["--abuf", "/no/abuf", "lantern"], [], ["--bogus"], ["--abuf", "/bin/true", "films", "/no"]):
            self.assertEqual(self.draw(*words, status=2)[1].count("draw.sh: "), 1, words)


class Fit(unittest.TestCase):
    def fitted(self, points, aspect=4 / 3):
        """The places of the points in the image that the words show, from -1 to 1 each way, and their distances over the near."""
        words, _ = fit.fit(points, aspect)
        values = dict(word[2:].split("=") for word in words)
        move = [float(part) * scene.LENGTH for part in values["move"].split(",")]
        focal, near = float(values["focal"]), float(values["near"]) * scene.LENGTH
        seen = [(p[0] + move[0], p[1] + move[1], -(p[2] + move[2])) for p in points]
        return [(focal * x / w / aspect, focal * y / w, w / near) for x, y, w in seen]

    def test_all_points_are_shown(self):
        rng = random.Random(4)
        for size in (0.01, 1, 50, 5000):
            points = [tuple(rng.uniform(-size, size) * scene.LENGTH + away for away in (size, 0, -size)) for _ in range(30)]
            places = self.fitted(points)
            reach = max(max(abs(x), abs(y)) for x, y, _ in places)
            self.assertLess(reach, 0.95, size)
            self.assertGreater(reach, 0.85 if size > 0.02 else 0.0, size)
            self.assertTrue(all(1 <= far for _, _, far in places), size)

    def test_points_in_any_form(self):
        data = b"v 1.5 -2.25 3.0\r\n\tv 1 2 3 # x\nv  0.0 1.0  2.0 0.5 0.5 0.5\nvn 9 9 9\nv 1.0 1.0 1e1\nv1 0 0 0\n#v 7 7 7\nv 9999.99999 0.0 .5"
        units = {tuple(round(part * scene.LENGTH) for part in point) for point in
                 ((1.5, -2.25, 3), (1, 2, 3), (0, 1, 2), (1, 1, 10), (9999.99999, 0, 0.5))}
        self.assertEqual(fit.points_of(data), units)

    def test_the_cube_of_the_documents(self):
        done = helping.run("fit.py", "cube.obj", folder=helping.EXAMPLES)
        self.assertEqual(done.stdout, b"--move=0,0,-3.174 --near=2.13 --focal=2\n")

    def test_refusals(self):
        for data in (b"", b"f 1 2 3\n", b"v 1 2\n", b"v 1 2 nan\n", b"v 1 2 99999\n"):
            done = helping.run("fit.py", data=data)
            self.assertEqual((done.returncode, done.stdout, done.stderr.count(b"\n")), (2, b"", 1), data)


class Turntable(unittest.TestCase):
    def test_the_path_of_the_lantern(self):
        wanted = helping.read(os.path.join(helping.EXAMPLES, "lantern.path"))
        note = wanted.decode().splitlines()[1][2:]
        done = helping.run("turntable.py", "--images", "36", "--tilt", "8,1", "--move=0,0.36,-8.6", "--note", note)
        self.assertEqual(done.stdout, wanted)

    def test_each_line_is_taken(self):
        shots = reference.read_path(turntable.path(100, [8, 1], ["0", "0", "-4"], "").encode())
        self.assertEqual(len(shots), 100)
        self.assertTrue(all(shot.turn[0] * 1 == shot.turn[1] * 8 for shot in shots))

    def test_bad_words(self):
        for words in (["--images", "0"], ["--tilt", "1"], ["--tilt", "0,0"], ["--tilt", "x,1"], ["--move", "1,2"]):
            self.assertEqual(helping.run("turntable.py", *words).returncode, 2, words)


class Lantern(unittest.TestCase):
    def test_the_example(self):
        for name, text in (("lantern.obj", lantern.lantern()[0]), ("lantern.mtl", lantern.library())):
            self.assertEqual(helping.read(os.path.join(helping.EXAMPLES, name)).decode(), text)


class Compare(unittest.TestCase):
    def test_the_reference_gives_the_rows(self):
        small = [row for row in rows.rows() if not row.is_slow and row.stdin == "scene" and row.stdout == "taken"
                 and len(row.scene) < 400 and row.words[:1] in (["render"], ["pick"])]
        self.assertGreater(len(small), 200)
        for row in small[::5]:
            found = compare.run_reference(row)
            self.assertIsNone(compare.differences((row.status, row.out, row.err), found), row.title)

    def test_a_difference_is_told(self):
        self.assertIn("status: wanted 0", compare.differences((0, b"a", b""), (3, b"a", b"x")))
        self.assertIsNone(compare.differences((0, b"a", b""), (0, b"a", b"")))

    def test_a_seed_gives_the_same_scenes(self):
        one, other = (compare.Maker(random.Random(9)) for _ in range(2))
        self.assertEqual([one.case(n) for n in range(50)], [other.case(n) for n in range(50)])


class Fuzz(unittest.TestCase):
    def setUp(self):
        self.job = reference.job_of(["render", "--size", "2x2", "--nodes", "5"])
        self.image = pam.to_pam(BLACK)

    def fault(self, status, out=b"", err=b"", refusal=None):
        return fuzz.fault_of((status, out, err), self.job, 1, refusal)

    def test_answers_that_are_well(self):
        self.assertIsNone(self.fault(0, self.image))
        self.assertIsNone(self.fault(5, err=b"pool full: 6 fragments, 5 nodes\n"))
        self.assertIsNone(self.fault(3, err=b"line 1: bad number\n", refusal=(3, "line 1: bad number")))

    def test_answers_that_arent(self):
        for answer in ((None,), (0, self.image[:-1]), (0, self.image, b"x\n"), (1,), (-11,), (3, b"", b"line 1: bad thing\n"),
                       (3, b"", b"line 1: bad number\n"), (5, b"", b"pool full: 5 fragments, 5 nodes\n"),
                       (5, b"x", b"pool full: 6 fragments, 5 nodes\n"), (8, b"", b"no memory\n"), (8, b"", b"")):
            self.assertIsNotNone(self.fault(*answer), answer)
        self.assertIsNotNone(self.fault(0, self.image, refusal=(3, "line 1: bad number")))

    def test_a_report(self):
        self.job = reference.job_of(["pick", "0,0", "--size", "1x1", "--samples", "2"])
        good = b"fragments 2\nprim 0 mask 3\nprim 4 mask 2\nsample 0 prim 0 depth 5\nsample 1 prim 4 depth 4 prim 0 depth 5\n"
        self.assertIsNone(self.fault(0, good))
        for old, new in ((b"mask 3", b"mask 1"), (b"depth 4", b"depth 6"), (b"fragments 2", b"fragments 3"), (b"\nsample 1", b"")):
            self.assertIsNotNone(self.fault(0, good.replace(old, new)), old)

    def test_little_memory(self):
        whole = SimpleNamespace(status=0, out=self.image)
        self.assertTrue(fuzz.is_short_of_memory((8, b"", b"no memory\n"), whole, self.job))
        self.assertFalse(fuzz.is_short_of_memory((8, b"", b""), whole, self.job))
        self.assertFalse(fuzz.is_short_of_memory((8, b"x", b"no memory\n"), whole, self.job))

    def test_a_seed_gives_the_same_cases(self):
        self.assertEqual([fuzz_cases.make(1, n) for n in range(30)], [fuzz_cases.make(1, n) for n in range(30)])


class WrongBodies(unittest.TestCase):
    def test_a_log_is_read(self):
        with tempfile.TemporaryDirectory() as folder:
            log = helping.write(os.path.join(folder, "log"),
                                b"rt: must-fail abuf_num/odd.edit: refused, as it must be: src/sign.rt:3:1: error: (`returns`)\n"
                                b"rt: must-fail abuf_num/even.edit: NOT REFUSED\n")
            self.assertEqual(list(wrong_bodies.refusals_of([log])), [("abuf_num", "odd")])

    def test_rows_that_are_kept(self):
        page = "## abuf_num\n\n1 edits.\n\n| The wrong | Before → after | Refused at |\n|---|---|---|\n| odd | `a \\| b` → `c` | `f`: `g` |\n"
        kept = wrong_bodies.kept_places(page)
        self.assertEqual(kept["abuf_num", "| odd | `a \\| b` → `c`"], "`f`: `g`")

    def test_the_function_of_a_line(self):
        with tempfile.TemporaryDirectory() as folder:
            os.makedirs(os.path.join(folder, "crates", "a", "src"))
            helping.write(os.path.join(folder, "crates", "a", "src", "lib.rt"),
                          b"fn one() {\n    1\n}\n\n#[inline]\n// why\npub(crate) fn two() {\n    2\n}\n")
            self.addCleanup(setattr, wrong_bodies, "TOP", wrong_bodies.TOP)
            wrong_bodies.TOP = folder
            found = [wrong_bodies.function_at("a", "src/lib.rt", line) for line in (1, 2, 5, 6, 7, 8)]
            self.assertEqual(found, ["one", "one", "two", "two", "two", "two"])

    def test_edits_that_no_log_has(self):
        done = helping.run("wrong_bodies.py", os.devnull)
        self.assertEqual(done.returncode, 2)
        self.assertIn(b"no edit that was refused", done.stderr)


if __name__ == "__main__":
    unittest.main()
