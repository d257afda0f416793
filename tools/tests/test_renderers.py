"""examples/renderers: the scene that scripts are handed, runs, causes, and a whole comparison with renderers that are planted."""

import csv
import html.parser
import importlib.util
import io
import json
import math
import os
import random
import re
import sys
import tempfile
import time
import unittest

import helping
import agree
import reference
from abuflib import pam
from abuflib.report import Fault

RENDERERS = os.path.join(helping.EXAMPLES, "renderers")
sys.path.append(RENDERERS)

import renderer  # noqa: E402
from comparison import causes, documents, page, scenes, tables, trials  # noqa: E402

WORDS = ["--size", "40x30", "--background", "0.92,0.94,0.97", "--turn=12,5,-5,1", "--move=0,0,-3.3", "--focal", "2.25"]
CROSSING = os.path.join(helping.EXAMPLES, "crossing.obj")
# Renderers by their last word. What they draw lies beside the script.
PLANTED = '''
import os, sys, time
import renderer

kind = sys.argv.pop(1)

def info():
    if kind == "missing":
        raise renderer.Cant("install nothing")
    return renderer.Info("Planted " + kind, "1.0", "a desk")

def draw(scene, image):
    if kind == "crashes":
        renderer.run([sys.executable, "-c", "import os; os.abort()"])
    if kind == "sleeps":
        time.sleep(600)
    if kind == "picky":
        raise renderer.Cant("it draws on Sundays alone")
    done = renderer.run(["cat", os.path.join(os.path.dirname(os.path.abspath(__file__)), kind + ".pam")])
    with open(image, "wb") as file:
        file.write(done.out)
    return None if kind == "dark" else done

if __name__ == "__main__":
    renderer.main(info, draw)
'''
KINDS = ("exact", "dark", "crashes", "missing", "picky", "nonsense", "small")


def paint(colour, alpha):
    return reference.Paint(colour=colour, alpha=alpha)


class Handed(unittest.TestCase):
    """The scene as a script gets it."""

    def test_corners_are_seen_where_abuf_puts_them(self):
        rng = random.Random(42)
        for _ in range(30):
            turn = [rng.randint(-20, 20) for _ in range(3)] + [1]
            words = ["--size", "90x70", "--turn=" + ",".join(map(str, turn)), "--move=0.3,-0.2,-5", "--focal=1.7"]
            scene, job = renderer.load(CROSSING, words), reference.job_of(["render", *words])
            exact = [corner for corners, _ in agree.triangles_of_file(CROSSING) for corner in corners]
            handed = [corner for triangle in scene.triangles for corner in triangle.corners]
            self.assertEqual(len(handed), len(exact))
            for (x, y, z), corner in zip(handed, exact):
                wanted = reference.on_screen(job, reference.seen(job, corner))
                self.assertAlmostEqual(128 * 90 + 128 * 70 * scene.focal * x / -z, wanted[0], delta=0.51)
                self.assertAlmostEqual(128 * 70 - 128 * 70 * scene.focal * y / -z, wanted[1], delta=0.51)

    def test_the_camera_stands_where_the_corners_are_seen_from(self):
        scene = renderer.load(CROSSING, WORDS)
        exact = [[part / 65536 for part in corner] for corners, _ in agree.triangles_of_file(CROSSING) for corner in corners]
        handed = [corner for triangle in scene.triangles for corner in triangle.corners]
        for given, (x, y, z) in zip(exact, handed):
            way = [a - b for a, b in zip(given, scene.camera.position)]
            self.assertAlmostEqual(sum(map(float.__mul__, way, scene.camera.direction)), -z)
            self.assertAlmostEqual(sum(map(float.__mul__, way, scene.camera.up)), y)
            self.assertAlmostEqual(math.dist(given, scene.camera.position), math.hypot(x, y, z))

    def test_what_the_words_say(self):
        scene = renderer.load(CROSSING, [*WORDS, "--samples", "8", "--threads", "3", "--peel", "--maxval", "65535"])
        self.assertEqual((scene.width, scene.height, scene.focal, scene.near, scene.threads), (40, 30, 2.25, 0.125, 3))
        self.assertAlmostEqual(scene.angle, 2 * math.degrees(math.atan(1 / 2.25)))
        self.assertEqual([round(part, 4) for part in scene.background], [0.92, 0.94, 0.97])
        self.assertEqual(scene.words, ["--size=40x30", "--threads=3", "--turn=12,5,-5,1", "--move=0,0,-3.3", "--focal=2.25", "--background=0.92,0.94,0.97"])
        self.assertFalse(scene.is_cut)
        self.assertGreater(scene.far, max(scene.distances))
        self.assertTrue(renderer.load(CROSSING, ["--move=0,0,-0.5"]).is_cut)

    def test_materials_and_order(self):
        scene = renderer.load(CROSSING, WORDS)
        exact = [(tuple(part / 65535 for part in one.colour), one.alpha / 65535) for _, one in agree.triangles_of_file(CROSSING)]
        self.assertEqual([tuple(scene.materials[triangle.material]) for triangle in scene.triangles], exact)
        self.assertEqual(len(set(scene.materials)), len(scene.materials))
        self.assertEqual(sum(map(len, scene.by_material())), scene.most_layers)

    def test_saved_for_other_languages(self):
        with tempfile.TemporaryDirectory() as folder:
            scene, path = renderer.load(CROSSING, WORDS), os.path.join(folder, "scene.json")
            scene.save(path)
            told = json.loads(helping.read(path))
        self.assertEqual((told["width"], told["angle"], told["far"]), (40, scene.angle, scene.far))
        self.assertEqual(told["triangles"][0], {"corners": [list(corner) for corner in scene.triangles[0].corners], "material": 0})
        self.assertEqual(told["materials"][0]["alpha"], scene.materials[0].alpha)
        self.assertEqual(told["camera"]["up"], list(scene.camera.up))

    def test_scenes_that_are_refused(self):
        for words in (["--size", "0x3"], ["--focal"], ["a"]):
            with self.assertRaises(Fault):
                renderer.load(CROSSING, words)
        with self.assertRaises(Fault):
            renderer.load("/no/scene.obj", [])


class Runs(unittest.TestCase):
    def test_figures(self):
        done = renderer.call([sys.executable, "-c", "x = bytearray(b'x') * 50000000; print(len(x))"], limit=30)
        self.assertEqual((done.status, done.out), (0, b"50000000\n"))
        self.assertGreater(done.seconds, 0)
        self.assertGreater(done.peak, 48000)
        large = bytearray(b"x") * 200000000  # whose memory isn't that of what is started
        self.assertLess(renderer.call([sys.executable, "-c", "pass"], limit=30).peak, 48000 + 0 * len(large))
        self.assertEqual(renderer.call(["/no/program"], limit=30).why(), "/no/program: No such file or directory")

    def test_how_a_run_ends(self):
        for code, wanted in (("import sys; print('x: no', file=sys.stderr); sys.exit(7)", "x: no"), ("import os; os.abort()", "ended by SIGABRT"),
                             ("raise SystemExit(5)", "status 5")):
            self.assertEqual(renderer.call([sys.executable, "-c", code], limit=30).why(), wanted)

    def test_a_limit_ends_all_that_was_started(self):
        with tempfile.TemporaryDirectory() as folder:
            mark = os.path.join(folder, "pid")
            # A busy machine may need more than the first limit to come so far.
            for limit in (1, 5, 60):
                done = renderer.call(["sh", "-c", f"sleep 600 & echo $! > '{mark}'; wait"], limit=limit)
                self.assertIsNone(done.status)
                if os.path.exists(mark) and helping.read(mark):
                    break
            state = f"/proc/{int(helping.read(mark))}/stat"
            end = time.monotonic() + 20
            while os.path.exists(state) and helping.read(state).split()[2] != b"Z" and time.monotonic() < end:
                time.sleep(0.05)
            self.assertLess(time.monotonic(), end)

    def test_a_limit_of_memory(self):
        done = renderer.call([sys.executable, "-c", "bytes(1 << 30)"], limit=30, memory=0.5)
        self.assertIn("MemoryError", done.why())

    def test_the_figures_that_a_script_tells(self):
        told = renderer.Run(9, 9, 9, 0, b'more\n{"seconds": 1.5, "processor": 2.5, "peak": 7, "drawing": 0.5}\n')
        found = trials.taken(told)
        self.assertEqual((found.seconds, found.processor, found.peak, found.drawing), (1.5, 2.5, 7, 0.5))
        for out in (b"", b"text\n", b"7\n", b'{"seconds": "x"}\n'):
            self.assertEqual(trials.taken(renderer.Run(9, 9, 9, 0, out)).seconds, 9)


class Causes(unittest.TestCase):
    RED, GREEN, BLUE = (paint(colour, 32768) for colour in ((65535, 0, 0), (0, 65535, 0), (0, 0, 65535)))

    def pixel(self, *keys_and_paints, **more):
        layers = [causes.Layer(key, number, one) for number, (key, one) in enumerate(keys_and_paints)]
        return causes.Pixel((0, 0, 0), layers, **more)

    def cause(self, pixel, theirs):
        return causes.cause_of(pixel, theirs)

    def test_composited_as_abuf_does(self):
        job = reference.job_of(["render", *WORDS])
        primitives = agree.primitives_of_file(CROSSING, job)
        layers, drawn = causes.Layers(job, primitives), reference.draw(job, primitives)
        for y in range(0, job.height, 3):
            for x in range(0, job.width, 3):
                pixel, start = layers.at(x, y), 3 * (y * job.width + x)
                self.assertEqual(causes.composited(pixel.background, pixel.layers), tuple(drawn.values[start:start + 3]))

    def test_the_last_unit(self):
        self.assertEqual(self.cause(self.pixel((5, self.RED)), (127, 1, 0)), ("rounding", True))

    def test_equals(self):
        pixel = self.pixel((5, self.RED), (5, self.GREEN))
        for theirs in ((128, 64, 0), (128, 0, 0), (0, 128, 0), (128, 128, 0)):
            self.assertEqual(self.cause(pixel, theirs), ("equals", True), theirs)
        self.assertEqual(self.cause(pixel, (9, 9, 99)), ("equals", False))

    def test_nearly_equal_depth(self):
        self.assertEqual(self.cause(self.pixel((5, self.RED), (9, self.GREEN)), (128, 64, 0)), ("depth", True))
        self.assertEqual(self.cause(self.pixel((5, self.RED), (9000, self.GREEN)), (128, 64, 0)), ("order", True))

    def test_outlines_and_ties(self):
        blue = causes.Layer(7, 9, self.BLUE)
        for theirs, more, wanted in (((64, 0, 128), {"beside": [blue]}, "outline"), ((64, 0, 128), {"on_edge": [blue], "beside": [blue]}, "ties")):
            self.assertEqual(self.cause(self.pixel((5, self.RED), **more), theirs), (wanted, True))
        pixel = self.pixel((5, self.RED))
        self.assertEqual(self.cause(causes.Pixel((0, 0, 0), pixel.layers, beside=pixel.layers), (0, 0, 0)), ("outline", True))

    def test_what_a_new_renderer_may_do(self):
        pixel = self.pixel((1000, self.RED), (2000, self.GREEN), (3000, self.BLUE))
        pixel = causes.Pixel((32768, 32768, 32768), [layer._replace(number=2 - layer.number) for layer in pixel.layers])
        red, green, blue = pixel.layers
        for cause, background, layers in (("unsorted", pixel.background, [blue, green, red]), ("unsorted", pixel.background, [blue]),
                                          ("order", pixel.background, [green, red, blue]), ("background", (0, 0, 0), pixel.layers),
                                          ("background", (65535, 65535, 65535), pixel.layers)):
            theirs = causes.composited(background, layers)
            self.assertIn(self.cause(pixel, theirs), [(cause, True), ("cut", True)] if layers == [blue] else [(cause, True)])
        theirs = tuple(causes.with_curve(value) for value in causes.composited(pixel.background, pixel.layers))
        self.assertEqual(self.cause(pixel, theirs), ("curve", True))
        self.assertEqual([causes.with_curve(value) for value in (0, 1, 128, 255)], [0, 13, 188, 255])

    def test_layers_that_are_cut(self):
        faint = [paint((65535, 65535, 65535), 6554)] * 12
        pixel = self.pixel(*((1000 * k, one) for k, one in enumerate(faint)))
        self.assertEqual(self.cause(pixel, causes.composited((0, 0, 0), pixel.layers[-8:])), ("cut", True))

    def test_8_bits_between_the_layers(self):
        rng = random.Random(7)
        paints = [paint(tuple(rng.randrange(65536) for _ in range(3)), 983) for _ in range(256)]
        pixel = self.pixel(*((1000 * k, one) for k, one in enumerate(paints)))
        found = 0
        for theirs in causes.blended_in_8_bits(pixel):
            if causes.differ_by(theirs, causes.composited(pixel.background, pixel.layers)) > 1:
                self.assertEqual(self.cause(pixel, theirs), ("blending", True))
                found += 1
        self.assertGreater(found, 0)

    def test_what_nothing_explains(self):
        self.assertEqual(self.cause(self.pixel((5, self.RED)), (9, 9, 250)), ("unknown", False))
        self.assertEqual(self.cause(self.pixel((5, self.RED), (5000, self.BLUE)), (66, 3, 129)), ("blending", False))

    def test_what_is_near_an_outline(self):
        job = reference.job_of(["render", "--size", "8x8"])
        corners = ((0, 0, 5), (1024, 0, 5), (0, 1024, 5))
        layers = causes.Layers(job, [reference.Primitive(corners, reference.edge(*corners), self.RED)])
        self.assertEqual(layers.at(1, 2).on_edge, [causes.Layer(5, 0, self.RED)])  # 384 + 640 = 1024
        self.assertEqual((layers.at(0, 0).on_edge, layers.at(0, 0).beside), ([], []))
        self.assertEqual(len(layers.at(0, 0).layers), 1)
        self.assertEqual(layers.at(7, 7).layers, [])

    def test_the_worst_pixels_are_looked_into(self):
        self.assertEqual(causes.spread(range(10), 3), [0, 3, 6])
        self.assertEqual(causes.spread([4, 5], 9), [4, 5])


class Scenes(unittest.TestCase):
    def test_stacks(self):
        with tempfile.TemporaryDirectory() as folder:
            for count in (3, 8, 64):
                scene = scenes.stack(folder, count)
                self.assertEqual(len(scene.orders), 6 if count == 3 else 3)
                faces = [sorted((tuple(corners), one.colour) for corners, one in agree.triangles_of_file(order.path)) for order in scene.orders]
                self.assertEqual(len(faces[0]), 2 * count)
                self.assertTrue(all(one == faces[0] for one in faces))
                texts = [helping.read(order.path) for order in scene.orders]
                self.assertEqual(len(set(texts)), len(texts))
                job = reference.job_of(["render", *scene.words])
                pixel = causes.Layers(job, agree.primitives_of_file(scene.path(), job)).at(15, 32)
                self.assertEqual(len(pixel.layers), count)

    def test_all_are_there_and_are_the_same_again(self):
        with tempfile.TemporaryDirectory() as one, tempfile.TemporaryDirectory() as other:
            found = scenes.all_in(one)
            scenes.all_in(other)
            for name in os.listdir(one):
                self.assertEqual(helping.read(os.path.join(one, name)), helping.read(os.path.join(other, name)), name)
            for scene in found:
                if not scene.missing:
                    reference.job_of(["render", *scene.words])
                    self.assertTrue(agree.triangles_of_file(scene.path()), scene.name)
        self.assertEqual([scene.name for scene in found], ["stack-3", "stack-8", "stack-64", "stack-256", "stack-1024", "panes", "films", "cube", "lantern",
                                                           "furniture", "demo-1000"])


class Page(html.parser.HTMLParser):
    """What a page holds."""

    def __init__(self, text):
        super().__init__()
        self.pictures, self.links, self.ids = [], [], []
        self.feed(text)

    def handle_starttag(self, tag, attributes):
        told = dict(attributes)
        if tag == "img":
            self.pictures.append(told["src"])
        if tag == "a":
            self.links.append(told["href"])
        if "id" in told:
            self.ids.append(told["id"])


class Whole(unittest.TestCase):
    """All trials of a small scene, with the reference in abuf's place and renderers that are planted."""

    @classmethod
    def setUpClass(cls):
        cls.folder = tempfile.TemporaryDirectory()
        path = helping.write(os.path.join(cls.folder.name, "planted.py"), PLANTED.encode())
        cls.out = os.path.join(cls.folder.name, "out")
        stack = scenes.stack(cls.folder.name, 3)
        small = scenes.Scene("small", "Two orders & <more>.", ["--size", "10x8", "--background", "0.9,1,0.8", "--samples", "4"], stack.orders[:2])
        gone = scenes.Scene("gone", "Not there.", [], [], "install nothing")
        for name, words in (("exact", small.words[:4]), ("dark", small.words[:2])):
            helping.write(os.path.join(cls.folder.name, name + ".pam"), cls.drawn(words, stack.path()))
        helping.write(os.path.join(cls.folder.name, "nonsense.pam"), b"nonsense")
        helping.write(os.path.join(cls.folder.name, "small.pam"), b"P6 1 1 255 abc")
        cls.peers = [trials.peer_of([sys.executable, path, kind]) for kind in KINDS]
        cls.stack, cls.planted = stack, path
        cls.abuf = trials.program.Program(("sh", "-c", f"cat '{cls.folder.name}/exact.pam'", "sh"))
        plan = trials.Plan(cls.abuf, cls.peers, [1], 2, trials.Limits(300, 8), cls.out, lambda _: None)
        cls.results = json.loads(json.dumps(trials.results_of(plan, [small, gone])))
        cls.scene = cls.results["scenes"][0]

    @staticmethod
    def drawn(words, path):
        """What abuf draws, by the reference."""
        status, out, _ = reference.answer(["render", *words], lambda most: helping.read(path),
                                          lambda name, most: helping.read(os.path.join(os.path.dirname(path), name.decode())))
        assert status == 0
        return out

    @classmethod
    def tearDownClass(cls):
        cls.folder.cleanup()

    def test_how_each_comes_out(self):
        wanted = {"exact": ("drawn", ""), "dark": ("drawn", ""), "crashes": ("crashed", "ended by SIGABRT"), "missing": ("skipped", "install nothing"),
                  "picky": ("skipped", "it draws on Sundays alone"),
                  "nonsense": ("malformed", "not a PAM, PPM, PGM or PNG"), "small": ("malformed", "the sizes differ: 10x8 and 1x1")}
        self.assertEqual([peer.key for peer in self.peers], list(wanted))
        for key, (outcome, why) in wanted.items():
            for order in self.scene["orders"].values():
                told = order["results"][key]
                self.assertEqual(told["outcome"], outcome, key)
                self.assertIn(why, told["why"])
                self.assertEqual("times" in told, outcome == "drawn", key)

    def test_what_takes_too_long_is_tried_once(self):
        sleeps = trials.Peer("sleeps", [sys.executable, self.planted, "sleeps"])
        plan = trials.Plan(self.abuf, [sleeps], [1], 2, trials.Limits(2, 8), self.out + "2", lambda _: None)
        results = trials.results_of(plan, [scenes.Scene("tiny", "", ["--size", "10x8"], self.stack.orders[:2])])
        first, second = (order["results"]["sleeps"] for order in results["scenes"][0]["orders"].values())
        self.assertEqual((first["outcome"], first["why"]), ("too long", "longer than 2 s"))
        self.assertEqual((second["outcome"], second["why"]), ("too long", "not tried: longer than 2 s in another order"))
        self.assertEqual(tables.verdict_of(results["scenes"][0], "sleeps").text(), "too long")

    def test_what_is_measured(self):
        first, second = (order["results"] for order in self.scene["orders"].values())
        for results, rounds in ((first, 2), (second, 1)):
            for key in ("abuf", "exact", "dark"):
                self.assertEqual(results[key]["times"]["1"]["rounds"], rounds)
                self.assertGreater(results[key]["times"]["1"]["peak"], 500)
                self.assertFalse(results[key]["varies"])
        self.assertEqual(self.scene["words"], ["--size=10x8", "--background=0.9,1,0.8"])
        self.assertEqual(self.scene["triangles"], 6)

    def test_what_differs(self):
        for order in self.scene["orders"].values():
            self.assertTrue(order["is_as_first"])
            self.assertEqual((order["results"]["exact"]["differing"], order["results"]["exact"]["causes"]), (0, {}))
            dark = order["results"]["dark"]
            self.assertEqual((dark["differing"], dark["greatest"], dark["looked_at"]), (80, 255, 80))
            self.assertNotIn("difference", order["pictures"]["exact"])
            for name in order["pictures"]["dark"].values():
                self.assertEqual(pam.load(os.path.join(self.out, name))[:2], (10, 8))
        self.assertEqual([name for name in os.listdir(self.out) if not name.endswith(".png") or ".drawn." in name], [])

    def test_verdicts(self):
        verdicts = {peer.key: tables.verdict_of(self.scene, peer.key) for peer in self.peers}
        self.assertTrue(verdicts["exact"].is_same)
        self.assertEqual((verdicts["dark"].same, verdicts["dark"].orders, verdicts["dark"].pixels), (0, 2, 80))
        self.assertEqual({key: verdict.text() for key, verdict in verdicts.items() if key != "dark"},
                         {"exact": "0", "crashes": "crashed", "missing": "skipped", "picky": "skipped", "nonsense": "no image",
                          "small": "no image"})
        self.assertTrue(verdicts["dark"].text().startswith("80 (by 255): "))
        self.assertEqual(tables.faults_of(self.results), [])

    def test_faults_of_abuf_are_told(self):
        results = json.loads(json.dumps(self.results))
        first, second = results["scenes"][0]["orders"].values()
        first["results"]["abuf"]["varies"], second["is_as_first"] = True, False
        self.assertEqual(len(tables.faults_of(results)), 2)

    def test_tables(self):
        rows = list(csv.DictReader(io.StringIO(tables.csv_of(self.results))))
        self.assertEqual(len(rows), 2 * (1 + len(KINDS)))
        self.assertEqual(set(rows[0]), set(tables.COLUMNS))
        self.assertEqual([row["differing"] for row in rows if row["renderer"] == "dark"], ["80", "80"])
        lines = tables.markdown_of(self.results).splitlines()
        self.assertIn("the best of 2 runs", lines[0])
        for load, is_told in ((0.5, False), (30.0, True)):
            self.assertEqual("had other work" in tables.how_of({**self.results, "load": load, "load_at_end": 0.5, "processors": 4}), is_told)
        for line in lines[2:]:
            self.assertEqual(line.count("|"), 0 if not line else lines[2].count("|") if line in lines[2:5] else lines[6].count("|"), line)
        self.assertIn("small by crashes: crashed: ", tables.summary_of(self.results))
        self.assertIn("gone: skipped: install nothing", tables.summary_of(self.results))

    def test_the_page(self):
        text = page.html_of(self.results, self.out)
        found = Page(text)
        self.assertIn("Two orders &amp; &lt;more&gt;.", text)
        self.assertEqual((found.links, found.ids), (["#small"], ["small"]))
        self.assertEqual(len(found.pictures), 3)  # abuf's, that of dark, and where it differs
        self.assertTrue(all(picture.startswith("data:image/png;base64,") for picture in found.pictures))
        self.assertNotIn("http", re.sub(r"data:[^\"]*", "", text))
        for words in ("Crashed: ", "ended by SIGABRT", "it draws on Sundays alone", "skipped: install nothing", "The same bytes in all 2 orders"):
            self.assertIn(words, text)

    def test_kept_results_are_shown_again(self):
        helping.write(os.path.join(self.out, "results.json"), json.dumps(self.results).encode())
        done = self.call("--from", "results.json", folder=self.out)
        self.assertEqual(done.returncode, 0, done.stderr)
        self.assertEqual(helping.read(os.path.join(self.out, "index.html")).decode(), page.html_of(self.results, self.out))
        for name in ("results.csv", "results.md", "results.json", "index.html"):
            os.remove(os.path.join(self.out, name))

    @staticmethod
    def call(*words, folder):
        """compare.py of the renderers in this process; tools/ has another one of that name."""
        found = importlib.util.spec_from_file_location("compare_renderers", os.path.join(RENDERERS, "compare.py"))
        module = importlib.util.module_from_spec(found)
        found.loader.exec_module(module)
        return helping.call(module, *words, folder=folder)

    def test_bad_words(self):
        for words in (["--only", "nothing"], ["--renderers", "nothing"], ["--from", "/no/results.json"], ["--abuf", "/no/abuf"], ["--threads", "x"],
                      ["--renderers", "", "--renderer", "true", "--renderer", "true"]):
            with tempfile.TemporaryDirectory() as folder:
                done = self.call("--output", folder, *(words if "--abuf" in words else ["--abuf", "/bin/true", *words]), folder=folder)
            self.assertEqual((done.returncode, done.stderr.count(b"compare.py: ")), (2, 1), (words, done.stderr))


class Scripts(unittest.TestCase):
    """The scripts as far as they need no renderer."""

    def script(self, *words):
        with tempfile.TemporaryDirectory() as folder:
            path = helping.write(os.path.join(folder, "planted.py"), PLANTED.encode())
            return helping.run(path, *words, folder=folder, PYTHONPATH=RENDERERS)

    def test_statuses(self):
        for kind, words, status in (("exact", ["--info"], 0), ("missing", ["--info"], 3), ("exact", [], 2), ("exact", ["/no.obj", "x.png"], 2),
                                    ("crashes", [CROSSING, "x.png", "--size=2x2"], 4), ("picky", [CROSSING, "x.png"], 3), ("exact", ["--help"], 0)):
            done = self.script(kind, *words)
            self.assertEqual(done.returncode, status, (kind, words, done.stderr))
            self.assertEqual(done.stderr.count(b"\n"), 0 if status == 0 else 1, done.stderr)

    def test_each_tells_what_to_install(self):
        for path in trials.scripts():
            with tempfile.TemporaryDirectory() as folder:
                done = helping.run(path, "--info", PATH=folder, CC="no-compiler", PYTHONPATH=RENDERERS)
            if done.returncode != 0:  # a driver's program may be built already
                self.assertEqual((done.returncode, done.stderr.count(b"\n")), (3, 1), done.stderr)
                self.assertIn(b"install ", done.stderr)

    def test_the_text_for_povray(self):
        sys.path.append(RENDERERS)
        import draw_povray
        text = draw_povray.text_of(renderer.load(CROSSING, WORDS))
        self.assertEqual((text.count("triangle {"), text.count("#declare M")), (len(agree.triangles_of_file(CROSSING)), 3))
        self.assertIn("direction <0, 0, 2.25>", text)
        self.assertIn("background { rgb <0.9199", text)


class Documents(unittest.TestCase):
    def test_the_documents_have_the_figures_that_were_measured(self):
        with open(documents.MEASURED, encoding="utf-8") as file:
            results = json.load(file)
        for path, parts in documents.parts_of(results).items():
            text = helping.read(path).decode()
            self.assertEqual(documents.with_parts(text, parts, path), text, path)

    def test_parts(self):
        text = "a\n<!-- renderers: one -->\nold\n<!-- end of one -->\nb\n"
        self.assertEqual(documents.with_parts(text, {"one": "new\n"}, "x"), "a\n<!-- renderers: one -->\n\nnew\n\n<!-- end of one -->\nb\n")
        for parts in ({"two": ""}, {"one": "", "two": ""}):
            with self.assertRaises(Fault):
                documents.with_parts(text, parts, "x")

    def test_strips(self):
        one, other = pam.Image(2, 2, 255, bytes(range(12))), pam.Image(4, 2, 255, bytes(24))
        found = documents.strip([one, other])
        self.assertEqual(found[:3], (2 + documents.GAP + 4, 2, 255))
        self.assertEqual(found.at(1, 1), one.at(1, 1))


if __name__ == "__main__":
    unittest.main()
