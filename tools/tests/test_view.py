"""The page: what its server answers, and in headless Chromium what it draws, turns and tells."""

import http.client
import json
import os
import re
import shlex
import subprocess
import tempfile
import threading
import unittest
import urllib.parse

import browser
import helping
import reference
import view
from abuflib import pam, program, scene

CAMERA = {"size": "40x30", "samples": "4", "turn": "12,5,-5,1", "move": "0,0,-3.3", "focal": "2.25", "background": "0.92,0.94,0.97"}


class Server(unittest.TestCase):
    """A server over a model, asked as a page asks."""

    def start(self, shown):
        server = view.server_of(shown, 0)
        self.addCleanup(server.server_close)
        self.addCleanup(server.shutdown)
        threading.Thread(target=server.serve_forever, daemon=True).start()
        self.port = server.server_address[1]
        self.address = server.server_address[0]

    def model(self, path):
        return view.Model(path, helping.abuf(), (1, 0, 0, 0), (64, 48), 4)

    def ask(self, path, host=None, **words):
        connection = http.client.HTTPConnection("127.0.0.1", self.port, timeout=60)
        self.addCleanup(connection.close)
        connection.request("GET", f"{path}?{urllib.parse.urlencode(words)}", headers={"Host": host or f"127.0.0.1:{self.port}"})
        answer = connection.getresponse()
        self.headers = answer.headers
        return answer.status, answer.read()

    def told(self, path, status=200, **words):
        found, data = self.ask(path, **words)
        self.assertEqual(found, status, data)
        return json.loads(data)


@helping.needs_abuf
class Models(Server):
    def test_the_page_and_its_address(self):
        self.start(self.model(os.path.join(helping.EXAMPLES, "crossing.obj")))
        self.assertEqual(self.address, "127.0.0.1")
        status, page = self.ask("/")
        self.assertEqual((status, page), (200, helping.read(view.PAGE)))
        self.assertIn("default-src 'self'", self.headers["Content-Security-Policy"])
        self.assertEqual(re.findall(rb"https?://", page), [])
        self.assertEqual(self.ask("/etc/passwd")[0], 404)
        self.assertEqual(self.ask("/../view.py")[0], 404)
        for host in ("example.org", f"example.org:{self.port}", "127.0.0.1.example.org:80"):
            self.assertEqual(self.ask("/state", host=host)[0], 403, host)
        self.assertEqual(self.ask("/state", host=f"localhost:{self.port}")[0], 200)

    def test_the_camera_is_that_of_fit(self):
        self.start(self.model(os.path.join(helping.EXAMPLES, "cube.obj")))
        state = self.told("/state")
        self.assertEqual([state["camera"][name] for name in ("move", "near", "focal")], ["0,0,-3.174", "2.13", "2"])
        self.assertEqual((state["middle"], round(state["reach"], 3)), ([0, 0, 0], 1.732))
        done = helping.run("fit.py", "--turn=8,2,-3,0", "--size", "320x240", "cube.obj", folder=helping.EXAMPLES)
        camera = self.told("/fit", turn="8,2,-3,0", size="320x240")
        self.assertIn(f"--move={camera['move']} --near={camera['near']} --focal={camera['focal']}", done.stdout.decode())

    def test_the_command_draws_the_image(self):
        self.start(self.model(os.path.join(helping.EXAMPLES, "crossing.obj")))
        status, image = self.ask("/image", **CAMERA)
        command = urllib.parse.unquote(self.headers["X-Command"])
        self.assertEqual(status, 200)
        words, _, files = command.partition(" < ")
        self.assertEqual(files, "crossing.obj > crossing.pam")
        data = helping.read(os.path.join(helping.EXAMPLES, "crossing.obj"))
        self.assertEqual(helping.abuf().output(shlex.split(words)[1:], data, helping.EXAMPLES), image)

    def test_a_full_pool_is_drawn_otherwise(self):
        model = self.model(os.path.join(helping.EXAMPLES, "crossing.obj"))
        whole, _ = model.run(["render", "--size", "40x30"])
        out, words = model.run(["render", "--size", "40x30", "--nodes=3"][:3])
        self.assertEqual(out, whole)
        model.abuf = Limited(model.abuf.command)
        out, words = model.run(["render", "--size", "40x30"])
        self.assertEqual((out, words[3]), (whole, "--nodes"))

    def test_layers_are_those_of_the_image(self):
        self.start(self.model(os.path.join(helping.EXAMPLES, "crossing.obj")))
        image = pam.read(self.ask("/image", **CAMERA)[1])
        for x, y in ((16, 7), (20, 15), (0, 0), (24, 20)):
            told = self.told("/pixel", x=x, y=y, **CAMERA)
            self.assertEqual(tuple(told["value"]), image.at(x, y))
        told = self.told("/pixel", x=16, y=7, **CAMERA)
        self.assertEqual([[layer["primitive"] for layer in layers] for layers in told["samples"]], [[2, 1], [2, 1], [1, 2], [2, 1]])
        lines = helping.read(os.path.join(helping.EXAMPLES, "crossing.obj")).split(b"\n")
        for layer in told["samples"][0]:
            self.assertTrue(lines[layer["line"] - 1].startswith(b"f "))
            above = [line for line in lines[:layer["line"]] if line.startswith(b"usemtl ")]
            self.assertEqual(above[-1], b"usemtl " + layer["material"].encode())

    def test_layers_where_the_near_plane_cuts(self):
        with tempfile.TemporaryDirectory() as folder:
            points = b"v -9 -9 3\nv 9 -9 3\nv 0 9 5\nv -9 9 -4\nv 9 9 -4\nv 0 -9 5\n"
            path = helping.write(os.path.join(folder, "cut.obj"), points + b"f 1 2 3\nf 1 3 6\nf 4 5 6 3\nf 4 5 1\n")
            self.start(self.model(path))
            words = {"size": "16x12", "samples": "2"}
            job = reference.job_of(["render", "--size=16x12", "--samples=2"])
            faces = view.Faces(helping.read(path), folder)
            triangles = reference.triangles_of(faces.obj, {})
            places = faces.faces_of_primitives(job.turn, job.shift, job.near)
            self.assertEqual(len(places), len(reference.primitives_of(job, triangles)))
            image = pam.read(self.ask("/image", **words)[1])
            for x, y in ((8, 6), (3, 3), (12, 10)):
                self.assertEqual(tuple(self.told("/pixel", x=x, y=y, **words)["value"]), image.at(x, y))

    def test_a_refusal_has_its_line_and_a_remedy(self):
        with tempfile.TemporaryDirectory() as folder:
            path = helping.write(os.path.join(folder, "a b.obj"), b"v 0 0 0\nv nan 0 0\nf 1 2 3\n")
            self.start(self.model(path))
            refusal = self.told("/state")["refusal"]
            self.assertEqual((refusal["status"], refusal["text"], refusal["line"], refusal["source"]), (3, "line 2: bad number", 2, "v nan 0 0"))
            self.assertEqual(refusal["command"], f"tools/fix_obj.py '{path}' fixed.obj")
            self.assertEqual(self.told("/image", 409, size="4x4")["text"], "line 2: bad number")

    def test_a_refusal_of_a_library(self):
        with tempfile.TemporaryDirectory() as folder:
            helping.write(os.path.join(folder, "a.mtl"), b"# colours\nKd 1 1\n")
            path = helping.write(os.path.join(folder, "a.obj"), b"mtllib a.mtl\nv 0 0 0\n")
            self.start(self.model(path))
            refusal = self.told("/state")["refusal"]
            self.assertEqual((refusal["text"], refusal["file"], refusal["source"]), ("library 1 line 2: no material", "a.mtl", "Kd 1 1"))

    def test_requests_that_arent_understood(self):
        self.start(self.model(os.path.join(helping.EXAMPLES, "white.obj")))
        self.assertEqual(self.told("/image", 409, size="0x0")["text"], "bad value: size")
        self.assertEqual(self.ask("/pixel", **CAMERA)[0], 400)
        self.assertEqual(self.ask("/pixel", x="1;2", y="0", **CAMERA)[0], 400)
        self.assertEqual(self.ask("/file", pair="0", side="a")[0], 404)
        # Only the options of the page are passed on.
        self.assertEqual(self.ask("/image", size="4x4", nodes="1", bands="0")[0], 200)


class Limited(program.Program):
    """A program whose default pool has three nodes."""

    def run(self, words, *more, **named):
        return super().run(words if "--nodes" in words else [*words, "--nodes", "3"], *more, **named)


class Pairs(Server):
    def test_images_of_a_folder(self):
        with tempfile.TemporaryDirectory() as folder:
            image = pam.Image(2, 1, 65535, bytes(12))
            for name in ("a.abuf.pam", "a.driver.pam", "a.where.pam", "b.abuf.pam"):
                pam.save(os.path.join(folder, name), image)
            pairs = view.pairs_of_folder(folder)
            self.assertEqual([(name, os.path.basename(b)) for name, _, b in pairs], [("a", "a.driver.pam")])
            self.start(view.Pairs(pairs))
            self.assertEqual(self.told("/state")["pairs"], [{"name": "a", "a": "a.abuf.pam", "b": "a.driver.pam"}])
            self.assertEqual(self.ask("/file", pair=0, side="b"), (200, pam.to_pam(image)))
            self.assertEqual(self.ask("/file", pair=7, side="b")[0], 400)
            self.assertEqual(self.ask("/image", size="4x4")[0], 404)


@unittest.skipIf(browser.chromium() is None, "Chromium isn't installed (Debian's package chromium)")
@helping.needs_abuf
class Chromium(unittest.TestCase):
    """The page as a user has it. One browser serves all tests, since it takes seconds to start."""

    @classmethod
    def setUpClass(cls):
        cls.page = browser.Browser(1100, 640)

    @classmethod
    def tearDownClass(cls):
        cls.page.__exit__()

    def show(self, *words, folder=None):
        viewer = browser.Viewer(*words, abuf=helping.abuf().path, folder=folder)
        self.addCleanup(viewer.__exit__)
        self.page.open(viewer.address)

    def at_rest(self, more="true"):
        self.page.wait(f"shown.kind === 'whole' && isAtRest() && ({more})")

    def pixels(self):
        """The bytes of the picture, as the page has them."""
        numbers = self.page.value("(() => { const p = document.querySelector('#picture');"
                                  " return [...p.getContext('2d').getImageData(0, 0, p.width, p.height).data]; })()")
        del numbers[3::4]
        return bytes(numbers)

    def drawn(self):
        """The bytes that the command of the page draws."""
        command = self.page.value("document.querySelector('#command').textContent")
        words, _, files = command.partition(" < ")
        scene_name = files.split(" > ")[0]
        data = helping.abuf().output(shlex.split(words)[1:], helping.read(os.path.join(helping.EXAMPLES, scene_name)), helping.EXAMPLES)
        return pam.read(data)

    def words(self):
        return self.page.value("view.words")

    def test_turning_moving_and_picking(self):
        self.show("lantern.obj", "--size", "160x120", "--samples", "4", "--turn=8,1,0,0", folder=helping.EXAMPLES)
        self.at_rest()
        first = self.pixels()
        self.assertEqual(first, self.drawn().values)
        # A drag draws small, and then whole, with another turn of whole numbers.
        self.page.value("window.kinds = []; const own = draw; draw = async kind => { await own(kind); kinds.push(kind); }")
        self.page.drag(self.page.place("#picture"), self.page.place("#picture", 0.7, 0.6))
        self.at_rest("view.words.turn !== state.camera.turn")
        kinds = self.page.value("kinds")
        self.assertEqual((kinds[0], kinds[-1]), ("small", "whole"))
        turn = [int(part) for part in self.words()["turn"].split(",")]
        self.assertEqual(max(map(abs, turn)), 1024)
        dragged = self.pixels()
        self.assertNotEqual(dragged, first)
        self.assertEqual(dragged, self.drawn().values)
        # To the right brings what is on the left to the front.
        self.assertGreater(turn[2] * turn[0], 0)
        # The wheel moves nearer.
        before = float(self.words()["move"].split(",")[2])
        self.page.mouse("mouseWheel", *self.page.place("#picture"), deltaX=0, deltaY=-300)
        self.at_rest(f"Number(view.words.move.split(',')[2]) > {before}")
        self.assertEqual(self.pixels(), self.drawn().values)
        # With shift a drag moves the model to the side.
        before = float(self.words()["move"].split(",")[0])
        self.page.drag(self.page.place("#picture"), self.page.place("#picture", 0.6, 0.5), modifiers=8)
        self.at_rest(f"Number(view.words.move.split(',')[0]) > {before}")
        # Keys take other samples and backgrounds, and the first view.
        self.page.key("1")
        self.at_rest("shown.words.samples === 1")
        self.page.key("b")
        self.at_rest("shown.words.background === '1,1,1'")
        self.assertEqual(self.pixels(), self.drawn().values)
        self.page.key("ArrowLeft")
        self.page.key("f")
        self.at_rest("Math.abs(view.away[0]) < 1")
        self.assertEqual(self.pixels(), self.drawn().values)
        self.page.key("r")
        self.at_rest("view.words.turn === '8,1,0,0'")
        # A click shows what lies in the pixel, and the value is that of the image.
        self.page.key("8")
        self.at_rest("shown.words.samples === 8")
        self.page.click(*self.page.place("#picture", 0.45, 0.5))
        told = self.page.wait("shown.pixel")
        x, y = map(int, told["pixel"].split(","))
        self.assertEqual(tuple(told["value"]), self.drawn().at(x, y))
        text = self.page.value("document.querySelector('#pixel').textContent")
        self.assertIn(f"({x},{y})", text)
        self.assertIn(told["samples"][0][0]["material"], text)
        self.assertNotIn("the image has", text)
        self.assertEqual(self.page.value("document.querySelectorAll('#pixel tr').length > 3"), True)

    def test_a_refusal_is_shown(self):
        with tempfile.TemporaryDirectory() as folder:
            helping.write(os.path.join(folder, "bad.obj"), b"v 0 0 0\nf 1 2 <b>\n")
            self.show("bad.obj", folder=folder)
            self.page.wait("shown.kind === 'refusal'")
            text = self.page.value("document.querySelector('#refusal').textContent")
            for part in ("line 2: bad index", "f 1 2 <b>", "tools/fix_obj.py bad.obj fixed.obj"):
                self.assertIn(part, text)

    def test_images_are_compared(self):
        with tempfile.TemporaryDirectory() as folder:
            a = pam.Image(4, 2, 255, bytes(24))
            b = a._replace(values=bytes([0, 0, 0, 255, 255, 255]) + bytes(18))
            pam.save(os.path.join(folder, "a.pam"), a)
            pam.save(os.path.join(folder, "b.png"), b)
            self.show("a.pam", "b.png", folder=folder)
            self.page.wait("shown.kind === 'pair'")
            self.assertEqual(self.page.value("document.querySelector('#counts').textContent"), "1 of 8 pixels differ, by 100.00 % at most")
            self.assertEqual(self.page.value("document.querySelectorAll('#pair canvas').length"), 2)
            pixel = "[...document.querySelector('#pair canvas').getContext('2d').getImageData(1, 0, 1, 1).data]"
            self.page.key("d")
            self.page.wait("shown.way === 'difference'")
            self.assertEqual(self.page.value(pixel), [255, 255, 0, 255])
            self.page.key("b")
            self.page.wait("shown.way === 'blink'")
            self.page.wait(f"String({pixel}) === '255,255,255,255'")
            self.page.wait(f"String({pixel}) === '0,0,0,255'")


class Words(unittest.TestCase):
    def test_what_cant_be_shown(self):
        with tempfile.TemporaryDirectory() as folder:
            for words in ([folder], ["a", "b", "c"], ["no.obj", "--abuf", "/bin/true"], ["a.pam", "b.pam"]):
                done = helping.run("view.py", "--no-browser", *words, folder=folder)
                self.assertEqual((done.returncode, done.stderr.count(b"\n")), (2, 1), (words, done.stderr))


if __name__ == "__main__":
    unittest.main()
