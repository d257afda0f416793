"""Fixing models. What is fixed is read by the reference, which refuses just what abuf refuses."""

import os
import re
import tempfile
import unittest

import helping
import fix_obj
import reference
from abuflib.report import Fault

POINTS = b"v 0 0 0\nv 1 0 0\nv 0 1 0\nv 1 1 0\n"
RED = b"newmtl red\nKd 1 0 0\n"


class Folder(unittest.TestCase):
    def setUp(self):
        folder = tempfile.TemporaryDirectory()
        self.addCleanup(folder.cleanup)
        self.folder = folder.name

    def path(self, name):
        return os.path.join(self.folder, name)

    def put(self, **files):
        """Writes files, whose names have _ for the dot."""
        for name, data in files.items():
            helping.write(self.path(".".join(name.rsplit("_", 1))), data)

    def fix(self, *words, model="model.obj", target="fixed.obj", status=0):
        done = helping.call(fix_obj, model, target, *words, folder=self.folder)
        self.assertEqual(done.returncode, status, done.stderr.decode())
        self.told = done.stdout.decode()
        return helping.read(self.path(target))

    def drawn(self, data):
        """The points and the triangles with their paints of a model, with the libraries that are in the folder."""
        obj = reference.read_obj(data)
        materials = {}
        before = os.getcwd()
        os.chdir(self.folder)
        try:
            for number, name in enumerate(obj.libraries, 1):
                library = reference.fetch_from_folder(name, reference.MOST_BYTES)
                self.assertIsNotNone(library, name)
                reference.read_mtl(library, number, materials)
        finally:
            os.chdir(before)
        return obj.points, reference.triangles_of(obj, materials)

    def is_refused(self, data):
        try:
            self.drawn(data)
        except (reference.Refusal, AssertionError):
            return True
        return False


class Models(Folder):
    def triangles_of(self, lines, *words, status=0, points=POINTS):
        """Fixes a model that is refused, and gives its triangles."""
        self.put(model_obj=points + lines)
        self.assertTrue(self.is_refused(points + lines), lines)
        return self.drawn(self.fix(*words, status=status))

    def test_a_model_that_is_well_stays_as_it_is(self):
        for name in ("lantern", "films", "crossing", "cube", "panes", "white"):
            data = helping.read(os.path.join(helping.EXAMPLES, name + ".obj"))
            self.put(model_obj=data)
            for library in set(re.findall(rb"(?m)^mtllib (.*)$", data)):
                self.put(**{library.decode().replace(".", "_"): helping.read(os.path.join(helping.EXAMPLES, library.decode()))})
            self.assertEqual(self.fix(), data, name)
            self.assertIn("nothing to fix", self.told)

    def test_a_byte_order_mark(self):
        self.put(model_obj=b"\xef\xbb\xbf" + POINTS + b"f 1 2 3\r\n")
        self.assertEqual(self.fix(), POINTS + b"f 1 2 3\r\n")
        self.assertIn("line 1: a byte order mark", self.told)

    def test_utf_16(self):
        text = (POINTS + b"f 1 2 3\n").decode()
        for coding in ("utf-16", "utf-16-be", "utf-16-le"):
            self.put(model_obj=text.encode(coding))
            self.assertEqual(self.fix(), text.encode(), coding)

    def test_lines_that_end_in_cr_alone(self):
        self.put(model_obj=(POINTS + b"f 1 2 3\n").replace(b"\n", b"\r"))
        self.assertEqual(self.fix(), POINTS + b"f 1 2 3\n")

    def test_continued_lines(self):
        _, triangles = self.triangles_of(b"f 1 2 \\\n  3 \\\r\n 4\nf 1 2 3\n")
        self.assertEqual(len(triangles), 3)
        self.assertIn("model.obj: line 5: continued", self.told)
        lines = helping.read(self.path("fixed.obj")).split(b"\n")
        self.assertEqual((lines[5], lines[6], lines[7]), (b"", b"", b"f 1 2 3"))

    def test_a_backslash_in_a_comment_or_a_path_continues_nothing(self):
        self.put(model_obj=b"# C:\\models\\\n" + POINTS + b"mtllib a\\\nf 1 2 3\n", a_mtl=RED)
        self.assertIn(b"# C:\\models\\\nv 0 0 0\n", self.fix())

    def test_faces_of_few_corners(self):
        _, triangles = self.triangles_of(b"f 1 2\nf 3//1\nf\nf 1 2 # 3\nf 1 2 3\n")
        self.assertEqual(len(triangles), 1)
        self.assertIn("lines 5-6, 8: a face of fewer than three corners, made an l line", self.told)
        self.assertIn(b"\nl 1 2\nl 3//1\n# f\nl 1 2\nf 1 2 3\n", helping.read(self.path("fixed.obj")))

    def test_faces_of_many_corners(self):
        for count in (1025, 1026, 2048, 5000):
            corners = [1 + k % 4 for k in range(count)]
            _, triangles = self.triangles_of(b"f " + b" ".join(b"%d" % k for k in corners) + b"\nf 1 2 3\n")
            self.assertEqual(len(triangles), count - 2 + 1)
            places = [(0.0, 0.0), (1.0, 0.0), (0.0, 1.0), (1.0, 1.0)]
            wanted = [(corners[0], b, c) for b, c in zip(corners[1:], corners[2:])]
            found = [tuple(1 + places.index((p[0] / 65536, p[1] / 65536)) for p in triangle) for triangle, _ in triangles[:-1]]
            self.assertEqual(found, wanted, count)

    def test_indices(self):
        _, triangles = self.triangles_of(b"f 1 2 9\nf 1 2 -5\nf 1 2 3\n")
        self.assertEqual(len(triangles), 1)
        self.assertIn("lines 5-6: a face with a point that isn't there", self.told)
        _, triangles = self.triangles_of(b"f +1 2.0 3/1/1/1\nf 1 2 x\n")
        self.assertEqual(len(triangles), 1)

    def test_points_counted_from_0(self):
        _, triangles = self.triangles_of(b"f 0 1/0/0 2\nf 1 2 3\n")
        self.assertEqual([tuple(p[:2]) for p in triangles[1][0]], [(65536, 0), (0, 65536), (65536, 65536)])
        self.assertIn(b"f 1 2/0/0 3\nf 2 3 4\n", helping.read(self.path("fixed.obj")))

    def test_a_0_among_points_counted_from_1(self):
        _, triangles = self.triangles_of(b"f 0 1 2\nf 2 3 4\n")
        self.assertEqual(len(triangles), 1)

    def test_free_forms_and_odd_keywords(self):
        self.triangles_of(b"cstype bezier\ncurv2 1 \\\n 2\n\xa0x 1\nf 1 2 3\n")
        fixed = helping.read(self.path("fixed.obj"))
        self.assertIn(b"# cstype bezier\n# curv2 1   2\n\n# \xa0x 1\n", fixed)

    def test_numbers(self):
        for old, wanted in ((b"nan", 0), (b"-1.#IND00", 0), (b"inf", 0), (b"0,5", 32768), (b"0." + b"5" * 40, 36409), (b"2e0001", 1310720),
                            (b"1,", 65536), (b"5-e1", 32768), (b"abc", 0)):
            points, _ = self.triangles_of(b"f 1 2 3\n", points=POINTS.replace(b"v 1 1 0", b"v 1 1 " + old))
            self.assertEqual(points[3], (65536, 65536, wanted), old)
            self.assertIn("line 4: ", self.told)

    def test_few_numbers_and_commas(self):
        points, _ = self.triangles_of(b"f 1 2 3\n", points=POINTS.replace(b"v 1 1 0", b"v 1 1"))
        self.assertEqual(points[3], (65536, 65536, 0))
        points, _ = self.triangles_of(b"f 1 2 3\n", points=POINTS.replace(b"v 1 1 0", b"v 1.5,1,2"))
        self.assertEqual(points[3], (98304, 65536, 131072))

    def test_the_coordinates_of_a_map_get_another_origin(self):
        points, _ = self.triangles_of(b"f 1 2 3\n", points=b"v 500000.25 5400000 0\nv 500010 5400000.5 0\nv 500000 5400010 3\n")
        self.assertEqual([(x - points[2][0], y - points[0][1]) for x, y, _ in points], [(16384, 0), (655360, 32768), (0, 655360)])
        self.assertIn("500005,5400005,2 is the origin now", self.told)

    def test_a_large_model_is_scaled(self):
        points, _ = self.triangles_of(b"f 1 2 3\n", points=b"v -40000 0 0\nv 40000 0 0 1 1 1\nv 0 20 0\n")
        self.assertEqual(points, [(-262144000, 0, 0), (262144000, 0, 0), (0, 131072, 0)])
        self.assertIn("scaled by 0.1", self.told)
        self.assertIn(b"v 4000 0 0 1 1 1\n", helping.read(self.path("fixed.obj")))

    def test_a_far_point_that_no_face_has(self):
        points, _ = self.triangles_of(b"v 1e9 0 0\nf 1 2 3\n")
        self.assertEqual(points[:4] + points[4:], [(0, 0, 0), (65536, 0, 0), (0, 65536, 0), (65536, 65536, 0), (0, 0, 0)])

    def test_scale_and_origin_that_are_asked_for(self):
        self.put(model_obj=POINTS + b"f 1 2 3\n")
        points, _ = self.drawn(self.fix("--scale", "-1000", "--origin", "1,0,0.5"))
        self.assertEqual(points[0], (65536000, 0, 32768000))

    def test_nothing_is_drawn(self):
        self.put(model_obj=POINTS + b"p 1 2\n")
        self.fix(status=1)

    def test_what_is_no_model(self):
        for data in (b"\x1f\x8b\x08\x00x", b"PK\x03\x04", b"\x7fELF\x02\x01\x01\0\0\0\0\0\0\0\0\0\x03\0>"):
            self.put(model_obj=data)
            done = helping.call(fix_obj, "model.obj", "fixed.obj", folder=self.folder)
            self.assertEqual((done.returncode, done.stderr.count(b"\n")), (2, 1), done.stderr)
            self.assertFalse(os.path.exists(self.path("fixed.obj")))


class Materials(Folder):
    def colours(self, data):
        return [(paint.colour, paint.alpha) for _, paint in self.drawn(data)[1]]

    def test_no_library(self):
        self.put(model_obj=POINTS + b"usemtl red\nf 1 2 3\nusemtl (null)\nf 1 2 4\n")
        fixed = self.fix()
        self.assertEqual(self.colours(fixed), [((65535,) * 3, 65535)] * 2)
        self.assertTrue(fixed.startswith(POINTS + b"usemtl red\nf 1 2 3\n"))
        self.assertEqual(self.told.count("is in no library"), 2)

    def test_a_name_that_no_face_has_isnt_missed(self):
        self.put(model_obj=POINTS + b"usemtl lost\nusemtl red\nf 1 2 3\nmtllib a.mtl\n", a_mtl=RED)
        self.assertEqual(self.colours(self.fix()), [((65535, 0, 0), 65535)])
        self.assertFalse(os.path.exists(self.path("fixed-new.mtl")))

    def test_a_name_that_edges_alone_have_isnt_missed(self):
        self.put(model_obj=POINTS + b"usemtl lost\nf 1 2\nf 1 2 9\nusemtl red\nf 1 2 3\nmtllib a.mtl\n", a_mtl=RED)
        self.assertEqual(self.colours(self.fix()), [((65535, 0, 0), 65535)])
        self.assertNotIn("lost", self.told)

    def test_several_libraries_on_a_line(self):
        self.put(model_obj=b"mtllib a.mtl b.mtl\n" + POINTS + b"usemtl red\nf 1 2 3\nusemtl blue\nf 1 2 3\n",
                 a_mtl=RED, b_mtl=b"newmtl blue\nKd 0 0 1\n")
        fixed = self.fix()
        self.assertEqual(self.colours(fixed), [((65535, 0, 0), 65535), ((0, 0, 65535), 65535)])
        self.assertTrue(fixed.startswith(b"mtllib a.mtl\nmtllib b.mtl\n"))

    def test_a_library_whose_name_has_a_blank(self):
        self.put(model_obj=b"mtllib a b.mtl\n" + POINTS + b"usemtl red\nf 1 2 3\n")
        helping.write(self.path("a b.mtl"), RED)
        self.assertIn(b"mtllib a b.mtl\n", self.fix())

    def test_paths_and_capitals(self):
        for name in (b"C:\\work\\a.mtl", b"A.MTL", b"/home/someone/a.mtl", b"..\\x\\a.mtl", b'"a.mtl"'):
            self.put(model_obj=b"mtllib " + name + b"\n" + POINTS + b"usemtl red\nf 1 2 3\n", a_mtl=RED)
            fixed = self.fix()
            self.assertTrue(fixed.startswith(b"mtllib a.mtl\n"), name)
            self.assertIn("line 1: names the library a.mtl now", self.told)
            self.assertEqual(self.colours(fixed), [((65535, 0, 0), 65535)])

    def test_a_missing_library_for_which_another_stands(self):
        self.put(model_obj=b"mtllib lost.mtl\n" + POINTS + b"usemtl red\nf 1 2 3\n", a_mtl=RED, b_mtl=b"newmtl blue\n")
        self.assertEqual(self.colours(self.fix()), [((65535, 0, 0), 65535)])
        self.put(model_obj=b"mtllib lost.mtl\n" + POINTS + b"usemtl green\nf 1 2 3\n")
        self.assertEqual(self.colours(self.fix()), [((65535,) * 3, 65535)])
        self.assertTrue(helping.read(self.path("fixed.obj")).startswith(b"# mtllib lost.mtl\n"))

    def test_names_that_are_missing(self):
        self.put(model_obj=b"mtllib a.mtl\nmtllib\n" + POINTS + b"usemtl \nf 1 2 3\n", a_mtl=b"newmtl \nKd 0 1 0\n")
        self.assertEqual(self.colours(self.fix()), [((0, 65535, 0), 65535)])
        self.assertEqual(helping.read(self.path("a.mtl")), b"newmtl \nKd 0 1 0\n")

    def test_values_of_libraries(self):
        for lines, wanted in ((b"Kd 0,5 0 0", ((32768, 0, 0), 65535)), (b"d -halo 0.5", ((65535,) * 3, 32768)),
                              (b"Kd spectral a.rfl", ((65535,) * 3, 65535)), (b"Kd 1 0", ((65535,) * 3, 65535)),
                              (b"Kd nan 0 0\r\nd 0.5", ((0, 0, 0), 32768)), (b"d", ((65535,) * 3, 65535))):
            self.put(model_obj=b"mtllib a.mtl\n" + POINTS + b"usemtl m\nf 1 2 3\n", a_mtl=b"Kd 1 1 1\nnewmtl m\n" + lines + b"\n")
            self.assertEqual(self.colours(self.fix()), [wanted], lines)
            self.assertIn("a.mtl: line 3: ", self.told)

    def test_tr(self):
        library = b"newmtl a\nTr 0.25\nnewmtl b\nTr 0.25\nd 0.5\n"
        self.put(model_obj=b"mtllib a.mtl\n" + POINTS + b"usemtl a\nf 1 2 3\nusemtl b\nf 1 2 3\n", a_mtl=library)
        for words, alpha in (([], 65535), (["--tr", "inverted"], 49151), (["--tr", "alpha"], 16384)):
            self.assertEqual([a for _, a in self.colours(self.fix(*words))], [alpha, 32768], words)

    def test_another_folder(self):
        os.mkdir(self.path("to"))
        self.put(model_obj=b"mtllib a.mtl\n" + POINTS + b"usemtl red\nf 1 2 3\n", a_mtl=RED)
        self.fix(target="to/fixed.obj")
        self.assertEqual(sorted(os.listdir(self.path("to"))), ["fixed-a.mtl", "fixed.obj"])
        self.assertEqual(helping.read(self.path("to/fixed-a.mtl")), RED)

    def test_nothing_is_written_over_what_was_read(self):
        model = b"mtllib fixed-a.mtl\n" + POINTS + b"usemtl\nf 1 2 3\n"
        helping.write(self.path("model.obj"), model)
        helping.write(self.path("fixed-a.mtl"), RED)
        os.symlink("model.obj", self.path("link.obj"))
        for target in ("model.obj", "./model.obj", "link.obj", "fixed-a.mtl"):
            done = helping.call(fix_obj, "model.obj", target, folder=self.folder)
            self.assertEqual(done.returncode, 2, target)
        self.assertEqual((helping.read(self.path("model.obj")), helping.read(self.path("fixed-a.mtl"))), (model, RED))

    def test_without_a_target_nothing_is_written(self):
        self.put(model_obj=b"mtllib lost.mtl\n" + POINTS + b"usemtl red\nf 1 2 3\n")
        done = helping.call(fix_obj, "model.obj", folder=self.folder)
        self.assertEqual(done.returncode, 0)
        self.assertIn(b"lost.mtl is missing", done.stdout)
        self.assertEqual(os.listdir(self.folder), ["model.obj"])


class Parts(unittest.TestCase):
    def test_ranges(self):
        self.assertEqual(fix_obj.ranges([3], False), "line 3")
        self.assertEqual(fix_obj.ranges([3, 4, 5, 9], False), "lines 3-5, 9")
        many = list(range(1, 100, 2))
        self.assertTrue(fix_obj.ranges(many, False).endswith(", 23, and 38 more"))
        self.assertTrue(fix_obj.ranges(many, True).endswith(", 99"))

    def test_binary_data(self):
        with tempfile.TemporaryDirectory() as folder:
            path = helping.write(os.path.join(folder, "a"), b"PK\3\4")
            with self.assertRaises(Fault):
                fix_obj.load(path, fix_obj.Changes("a"))


if __name__ == "__main__":
    unittest.main()
