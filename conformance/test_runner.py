#!/usr/bin/env python3
"""Tests of the oracle, of the verdicts and of the runner. No driver is needed, but a C compiler.

    test_runner.py [-v] [TEST..]

Faults are planted into the oracle, which then stands as the driver. Without a C compiler all is
skipped.
"""

from __future__ import annotations

import contextlib
import csv
import hashlib
import io
import json
import os
import shlex
import shutil
import signal
import subprocess
import sys
import tempfile
import time
import unittest
import xml.etree.ElementTree
from collections import Counter

HERE = os.path.dirname(os.path.abspath(__file__))
sys.path.insert(0, HERE)

from testing import cases, drivers, images, randoms, scenes, verdicts  # noqa: E402
from testing.faults import Unusable  # noqa: E402

RUNNER = os.path.join(HERE, "runner.py")
FAULTY = f"{sys.executable} {os.path.join(HERE, 'testing', 'faulty.py')}"
SECONDS = str(100000 + os.getpid())  # so that two runs of these tests at once don't meet
SLEEP = f"sleep {SECONDS}"  # what a driver that hangs leaves running
os.environ["FAULTY_SECONDS"] = SECONDS
SMALL = "^(coverage/(corners|fan|orders|tiny)@|subpixel/)"  # the cases that most faults are looked for in
try:
    EXACT = drivers.built("exact")
except Unusable as why:
    print(f"test_runner.py: skipped: {why}")
    sys.exit(0)


def exact(path: str, *words: str) -> bytes:
    with open(path, "rb") as file:
        return subprocess.run([EXACT, *words], stdin=file, capture_output=True, check=True).stdout


def scene_path(name: str) -> str:
    return os.path.join(HERE, name + ".tri")


def text_of(name: str) -> str:
    with open(scene_path(name), encoding="utf-8") as file:
        return file.read()


class Folder(unittest.TestCase):
    """A test with a folder for output."""

    def setUp(self) -> None:
        self.temporary = tempfile.TemporaryDirectory()
        self.addCleanup(self.temporary.cleanup)
        self.folder = self.temporary.name

    def path(self, name: str) -> str:
        return os.path.join(self.folder, name)

    def write(self, name: str, text: str) -> str:
        with open(self.path(name), "w", encoding="utf-8") as file:
            file.write(text)
        return self.path(name)

    def words(self, driver: str, *words: str) -> list[str]:
        return [sys.executable, RUNNER, "run", "--output", self.path("out"), "--driver", driver, "--jobs", "2", *words]

    def run_on(self, driver: str, *words: str) -> subprocess.CompletedProcess:
        return subprocess.run(self.words(driver, *words), capture_output=True, text=True)

    def results(self) -> dict:
        with open(self.path("out/results.json"), encoding="utf-8") as file:
            return json.load(file)

    def trials(self) -> dict[str, dict]:
        return {trial["name"]: trial for trial in self.results()["trials"]}

    def statuses(self) -> Counter:
        return Counter(trial["status"] for trial in self.results()["trials"])

    def found_verdicts(self) -> set[str]:
        return {trial["verdict"] for trial in self.results()["trials"] if "verdict" in trial}


class Oracle(unittest.TestCase):
    def test_images_are_those_recorded_of_abuf(self) -> None:
        count = 0
        for folder in sorted(os.listdir(HERE)):
            record = os.path.join(HERE, folder, "cases.json")
            if not os.path.exists(record):
                continue
            with open(record, encoding="utf-8") as file:
                records = json.load(file)
            for case in records:
                path = scene_path(f"{folder}/{case['name']}")
                if os.path.exists(path):
                    words = shlex.split(case["command"].replace("=", " "))
                    maxval = words[words.index("--maxval") + 1] if "--maxval" in words else "255"
                    image = exact(path, "--image", "--maxval", maxval)
                    self.assertEqual(hashlib.sha256(image).hexdigest(), case["sha256"], path)
                    count += 1
        self.assertGreater(count, 150)

    def test_fans_cover_each_sample_once(self) -> None:
        for reach in (500, 2500, 4000, 8000, 30000):
            covered: Counter = Counter()
            for line in exact(scene_path(f"far/fans-{reach}")).decode().splitlines():
                x, y, primitive, mask = map(int, line.split())
                covered[x, y, primitive // 12] += mask
            self.assertEqual(len(covered), 3 * 32 * 32)
            self.assertEqual(set(covered.values()), {1})

    def test_modes_agree(self) -> None:
        for name in ("coverage/fan-16", "samples/steps-8", "far/long-edges"):
            native = exact(scene_path(name))
            for mode in ("grid", "magnify", "emulate"):
                self.assertEqual(exact(scene_path(name), "--mode", mode), native, f"{name} {mode}")

    def test_fragments_of_a_file_give_the_same_image(self) -> None:
        with tempfile.NamedTemporaryFile() as file:
            file.write(exact(scene_path("depth/crossing-4")))
            file.flush()
            image = exact(scene_path("depth/crossing-4"), "--image", "--fragments", file.name)
        self.assertEqual(image, exact(scene_path("depth/crossing-4"), "--image"))

    def test_corners_are_rounded_halves_to_even(self) -> None:
        scene = scenes.scene_of("size 4 4\nsamples 1\nbackground 0 0 0\n"
                                "t 8 24 0 -8 -24 0 264 7 0 1 1 1 1\n", "scene")
        self.assertEqual(scene.rounded(4).triangles[0].corners, ((0, 32), (0, -32), (256, 0)))
        text = "size 2 2\nsamples 1\nbackground 0 0 0\nt {} 0 0 {} 512 0 512 0 0 1 1 1 1\n"
        rounded, ready = (subprocess.run([EXACT, "--bits", bits], input=text.format(x, x).encode(),
                                         capture_output=True).stdout for bits, x in (("4", 136), ("8", 128)))
        self.assertEqual(rounded, ready)

    def test_broken_scenes_are_told_in_one_line(self) -> None:
        good = "size 4 4\nsamples 1\nbackground 0 0 0\n"
        for text in ("", "size 4\n", "size 4 4\n", good + "t 1 2 3\n", "size 0 4\nsamples 1\n", good + "u 1\n",
                     "size 4 4\nsamples 3\n", good + "t 0 0 -1 0 0 0 0 0 0 0 0 0 0\n", good + "t" + " 9" * 14 + "\n",
                     good + "t 99999999999999999999" + " 0" * 12 + "\n", good + "t 0 0 0 0 0 0 0 0 0 65536 0 0 0\n",
                     good + "t 70368744177665" + " 0" * 12 + "\n", "size 4097 4\nsamples 1\n", good + "\n",
                     good.replace("\n", "\r\n"), good + "background 0 0 65536\n"):
            done = subprocess.run([EXACT], input=text, capture_output=True, text=True)
            self.assertEqual((done.returncode, done.stderr.count("\n"), done.stdout), (2, 1, ""), text)
            with self.assertRaisesRegex(Unusable, "^scene: .*$"):
                scenes.scene_of(text, "scene")
        for text in (good, good + "# any words\n", good + "t 70368744177664" + " 0" * 12):
            self.assertEqual(subprocess.run([EXACT], input=text, capture_output=True, text=True).returncode, 0, text)
            self.assertEqual(scenes.scene_of(text, "scene").width, 4)


class PlantedFaults(Folder):
    """The driver is the oracle with a fault."""

    def run_fault(self, fault: str, *words: str) -> subprocess.CompletedProcess:
        words = words or ("--include", SMALL, "--modes", "native")
        return self.run_on(f"{EXACT} --fault {fault}", *words)

    def test_no_fault_passes(self) -> None:
        done = self.run_on(EXACT, "--include", SMALL, "--modes", "native,grid,emulate,native.bgra8")
        self.assertEqual((done.returncode, set(self.statuses())), (0, {"Pass", "Skip"}), done.stderr)

    def test_mirrored_samples_and_a_shift_are_wrong(self) -> None:
        for fault in ("mirror-x", "mirror-y", "shift"):
            done = self.run_fault(fault)
            self.assertEqual(done.returncode, 1)
            self.assertIn("wrong", self.found_verdicts(), fault)
            self.assertNotIn("precision", self.found_verdicts(), fault)

    def test_fewer_subpixel_bits_are_wrong_if_they_are_not_told(self) -> None:
        self.assertEqual(self.run_fault("4-bits").returncode, 1)
        self.assertEqual(self.found_verdicts(), {"wrong"} | self.found_verdicts() & {"ties"})

    def test_fewer_subpixel_bits_are_precision_if_they_are_told(self) -> None:
        self.assertEqual(self.run_fault("4-bits-told").returncode, 0)
        self.assertEqual(self.found_verdicts(), {"precision"})
        self.assertTrue(all("halves to even" in trial["reason"] for trial in self.trials().values()
                            if trial["status"] == "Warn"))
        done = self.run_on(f"{EXACT} --fault 4-bits-told", "--include", SMALL, "--modes", "grid,magnify")
        self.assertEqual((done.returncode, self.statuses()["Warn"]), (0, 0))

    def test_another_rule_for_ties_is_ties(self) -> None:
        self.assertEqual(self.run_fault("bottom-right").returncode, 0)
        self.assertEqual(self.found_verdicts(), {"ties"})

    def test_edges_covered_twice_or_not_at_all_are_seams(self) -> None:
        for fault in ("every-edge", "no-edge"):
            self.assertEqual(self.run_fault(fault).returncode, 1)
            self.assertIn("seam", self.found_verdicts())
            self.assertNotIn("wrong", self.found_verdicts())

    def test_faults_of_depth_and_order_show_in_images(self) -> None:
        reasons = {"order-of-equals": "the earlier primitive is on top", "depth-at-centre": "at the pixel's centre",
                   "depth-in-floats": "equal or nearly so"}
        for fault, reason in reasons.items():
            done = self.run_fault(fault, "--include", "^depth/", "--modes", "native,image")
            self.assertEqual(done.returncode, 1, fault)
            told = [trial for trial in self.trials().values() if trial["status"] == "Fail"]
            self.assertTrue(all(trial["name"].endswith("@image") and trial["verdict"] == "image" for trial in told))
            self.assertTrue(any(reason in trial["reason"] for trial in told), fault)

    def test_the_worst_sample_is_named(self) -> None:
        self.run_fault("mirror-x", "--caselist", self.write("list", "coverage/corners@native\n"))
        finding = self.trials()["coverage/corners@native"]["finding"]
        worst = finding["worst"]
        scene = scenes.scene_of(text_of("coverage/corners"), "corners")
        self.assertEqual(worst["distance"], scenes.distance(
            scene.triangles[worst["primitive"]], scene.place(*worst["pixel"], worst["sample"])))

    def test_drivers_that_crash_hang_or_write_nonsense(self) -> None:
        wanted = {"crash": "Crash", "nonsense": "Malformed", "outside": "Malformed", "hang": "Timeout"}
        for fault, status in wanted.items():
            done = self.run_on(f"{FAULTY} {fault}", "--include", "^near/", "--modes", "native", "--timeout",
                               "10" if fault == "hang" else "60")
            self.assertEqual(done.returncode, 1, done.stderr)
            self.assertEqual(set(self.statuses()), {"Pass", status})
        self.assertEqual(processes_of(SLEEP), [])


def command_of(number: int) -> str:
    """The command line of a process, nothing if it has ended."""
    try:
        with open(f"/proc/{number}/cmdline", "rb") as file:
            return file.read().rstrip(b"\0").replace(b"\0", b" ").decode(errors="replace")
    except OSError:
        return ""


def processes_of(command: str) -> list[int]:
    """The processes with this command line."""
    return [number for number in map(int, filter(str.isdigit, os.listdir("/proc"))) if command_of(number) == command]


def kill_processes_of(command: str) -> None:
    for number in processes_of(command):
        with contextlib.suppress(ProcessLookupError):
            os.kill(number, signal.SIGKILL)


class Verdicts(unittest.TestCase):
    """Single samples, by scenes of one or two triangles."""

    HEAD = "size 2 2\nsamples 1\nbackground 0 0 0\n"

    def find(self, triangles: list[str], driver: str, bits: int = 8, reach: float = 2 ** 21) -> verdicts.Finding:
        text = self.HEAD + "".join(f"t {corners} 1 1 1 1\n" for corners in triangles)
        scene = scenes.scene_of(text, "scene")
        answer = subprocess.run([EXACT], input=text.encode(), capture_output=True).stdout.decode()
        found = verdicts.find(scene, verdicts.fragments_of(answer, scene), verdicts.fragments_of(driver, scene),
                              verdicts.Abilities(bits, reach))
        assert found is not None
        return found

    def test_a_sample_inside_that_is_missing_is_wrong(self) -> None:
        found = self.find(["0 0 0 512 0 0 0 512 0"], "0 0 0 1\n1 0 0 1\n")
        self.assertEqual((found.verdict, found.missing, found.extra), ("ties", 0, 1))
        found = self.find(["0 0 0 512 0 0 0 512 0"], "")
        self.assertEqual((found.verdict, found.missing, found.lost), ("wrong", 1, [0]))

    def test_the_order_of_lines_makes_no_difference(self) -> None:
        scene = scenes.scene_of(self.HEAD + "t 0 0 0 1024 0 0 0 1024 0 1 1 1 1\n", "scene")
        lines = ["0 0 0 1\n", "1 0 0 1\n", "0 1 0 1\n", "1 1 0 1\n"]
        forth, back = (verdicts.fragments_of("".join(some), scene) for some in (lines, lines[::-1]))
        self.assertIsNone(verdicts.find(scene, forth, back, verdicts.Abilities(8, 2 ** 21)))

    def test_a_shared_diagonal(self) -> None:
        halves = ["0 0 0 512 0 0 0 512 0", "512 0 0 512 512 0 0 512 0"]
        rest = "0 0 0 1\n1 1 1 1\n"
        self.assertEqual(self.find(halves, rest + "0 1 0 1\n1 0 0 1\n").verdict, "ties")
        self.assertEqual(self.find(halves, rest).verdict, "seam")
        both = rest + "0 1 0 1\n0 1 1 1\n1 0 0 1\n1 0 1 1\n"
        self.assertEqual(self.find(halves, both).verdict, "seam")

    def test_a_vertex_of_a_closed_fan(self) -> None:
        fan = ["128 128 0 1000 128 0 -500 1000 0", "128 128 0 -500 1000 0 -500 -1000 0",
               "128 128 0 -500 -1000 0 1000 128 0"]
        answer = subprocess.run([EXACT], input=(self.HEAD + "".join(f"t {c} 1 1 1 1\n" for c in fan)).encode(),
                                capture_output=True).stdout.decode().splitlines()
        rest = [line for line in answer if not line.startswith("0 0 ")]
        self.assertEqual(self.find(fan, "\n".join(rest)).verdict, "seam")
        owners = [line.split()[2] for line in answer if line.startswith("0 0 ")]
        other = next(n for n in "012" if n not in owners)
        self.assertEqual(self.find(fan, "\n".join([f"0 0 {other} 1", *rest])).verdict, "ties")

    def test_rounding_is_precision_up_to_a_step_and_wrong_beyond(self) -> None:
        triangle = ["136 -512 0 1024 -512 0 136 1024 0"]
        self.assertEqual(self.find(triangle, "0 0 0 1\n0 1 0 1\n1 0 0 1\n1 1 0 1\n", 4).verdict, "precision")
        self.assertEqual(self.find(triangle, "0 0 0 1\n0 1 0 1\n1 0 0 1\n1 1 0 1\n", 8).verdict, "wrong")

    def test_a_clipped_corner_is_allowed_a_distance(self) -> None:
        triangle = ["129 -2560 0 2560 -2560 0 129 2560 0"]
        more = "0 0 0 1\n0 1 0 1\n1 0 0 1\n1 1 0 1\n"
        self.assertEqual(self.find(triangle, more, reach=1024).verdict, "clipped")
        self.assertEqual(self.find(triangle, more, reach=4096).verdict, "wrong")
        self.assertEqual(self.find(triangle, "0 0 0 1\n0 1 0 1\n", reach=1024).verdict, "wrong")

    def test_a_sample_that_one_primitive_covers_twice_is_wrong(self) -> None:
        found = self.find(["0 0 0 512 0 0 0 512 0"], "0 0 0 1\n0 0 0 1\n")
        self.assertEqual(found.verdict, "wrong")
        self.assertIn("twice", found.reason)


class Baselines(Folder):
    DRIVER = f"{EXACT} --fault every-edge"
    WORDS = ("--include", "^coverage/(corners|fan|orders)", "--modes", "native")

    def test_failures_make_a_baseline(self) -> None:
        self.assertEqual(self.run_on(self.DRIVER, *self.WORDS).returncode, 1)
        with open(self.path("out/failures.csv"), encoding="utf-8") as file:
            baseline = self.write("baseline.csv", "# a comment\n" + file.read())
        self.assertEqual(self.run_on(self.DRIVER, *self.WORDS, "--baseline", baseline).returncode, 0)
        outcomes = set(self.results()["counts"])
        self.assertEqual(outcomes & {"Fail", "Warn"}, set())
        self.assertIn("ExpectedFail", outcomes)
        self.assertEqual(self.run_on(EXACT, *self.WORDS, "--baseline", baseline).returncode, 1)
        self.assertIn("UnexpectedPass", self.results()["counts"])
        self.assertEqual(self.run_on(f"{EXACT} --fault shift", *self.WORDS, "--baseline", baseline).returncode, 1)
        self.assertIn("Changed", self.results()["counts"])

    def test_baselines_that_are_kept_can_be_read(self) -> None:
        folder = os.path.join(HERE, "baselines")
        for name in os.listdir(folder):
            self.assertTrue(cases.baseline_of(os.path.join(folder, name), set(cases.scenes())), name)

    def test_an_unlisted_warn_differs_from_a_baseline(self) -> None:
        words = (f"{EXACT} --fault bottom-right", *self.WORDS)
        self.assertEqual(self.run_on(*words).returncode, 0)
        self.assertEqual(self.run_on(*words, "--baseline", self.write("empty.csv", "")).returncode, 1)

    def test_skips_and_flakes(self) -> None:
        everything = self.write("all", ".*\n")
        done = self.run_on(self.DRIVER, *self.WORDS, "--skips", everything)
        self.assertEqual((done.returncode, set(self.statuses())), (3, {"Skip"}))
        self.assertIn("nothing was tested", done.stdout)
        done = self.run_on(self.DRIVER, *self.WORDS, "--flakes", everything)
        self.assertEqual(done.returncode, 0)
        self.assertIn("KnownFlake", self.results()["counts"])

    def test_max_fails_ends_the_run(self) -> None:
        self.assertEqual(self.run_on(self.DRIVER, *self.WORDS, "--max-fails", "1").returncode, 1)
        self.assertIn("Missing", self.statuses())

    def test_fractions_make_the_whole(self) -> None:
        names: list[str] = []
        for start in "123":
            self.run_on(EXACT, *self.WORDS, "--fraction", "3", "--fraction-start", start)
            names += self.trials()
        self.assertEqual(len(names), len(set(names)))
        self.run_on(EXACT, *self.WORDS)
        self.assertEqual(set(names), set(self.trials()))


class Reports(Folder):
    def test_reports_of_faults(self) -> None:
        self.run_on(f"{EXACT} --fault every-edge", "--include", "^coverage/(corners|fan|orders)", "--modes", "native")
        results = self.results()
        suite = xml.etree.ElementTree.parse(self.path("out/junit.xml")).getroot()[0]
        self.assertEqual(int(suite.get("tests", 0)), len(results["trials"]))
        self.assertEqual(len(suite.findall("testcase/failure")), len(results["bad"]))
        with open(self.path("out/results.csv"), encoding="utf-8") as file:
            self.assertEqual([row[0] for row in csv.reader(file)], [trial["name"] for trial in results["trials"]])
        with open(self.path("out/index.html"), encoding="utf-8") as file:
            page = file.read()
        self.assertLess(page.index("<h2>seam"), page.index("<h2>ties"))
        self.assertNotIn("http", page.replace("http://www.w3.org", ""))
        for name in results["bad"]:
            self.assertIn(f'id="{name}"', page)
        for command in ("summary", "junit", "html"):
            done = subprocess.run([sys.executable, RUNNER, command, self.path("out/results.json")],
                                  capture_output=True, text=True)
            self.assertEqual((done.returncode, done.stderr), (0, ""))
        self.assertEqual(done.stdout, page)

    def test_the_picture_shows_pixels_whose_triangles_alone_differ(self) -> None:
        image = images.Image(2, 1, 255, (9, 9, 9, 9, 9, 9))
        picture = images.difference_picture(image, image, images.Window(0, 0, 2, 1), {(1, 0)})
        self.assertEqual(picture, images.png(2, 1, bytes((3, 3, 3, 255, 0, 0))))

    def test_the_command_of_a_case_repeats_it(self) -> None:
        self.run_on(f"{EXACT} --fault every-edge", "--caselist", self.write("list", "coverage/fan@native\n"))
        command = self.trials()["coverage/fan@native"]["command"]
        done = subprocess.run(["bash", "-c", command], cwd=drivers.TOP, capture_output=True, text=True)
        self.assertEqual(done.returncode, 1)
        self.assertIn("\n> ", done.stdout)


class Randoms(Folder):
    def run_random(self, driver: str, *words: str) -> subprocess.CompletedProcess:
        return subprocess.run([sys.executable, RUNNER, "random", "--output", self.path("out"), "--driver", driver,
                               "--scenes", "2", *words], capture_output=True, text=True)

    def test_exact_passes_every_kind(self) -> None:
        for kind in randoms.KINDS:
            done = self.run_random(EXACT, "--kind", kind)
            self.assertEqual(done.returncode, 0, done.stdout)
            self.assertIn("Pass: 2", done.stdout)

    def test_what_differs_is_shrunk_to_one_triangle(self) -> None:
        done = self.run_random(f"{EXACT} --fault shift", "--seed", "7")
        self.assertEqual(done.returncode, 1, done.stdout)
        self.assertIn("seed 7: wrong", done.stdout)
        with open(self.path("out/near-7-wrong.tri"), encoding="utf-8") as file:
            scene = scenes.scene_of(file.read(), "shrunk")
        self.assertEqual(len(scene.triangles), 1)

    def test_a_seam_is_shrunk_to_its_two_triangles(self) -> None:
        scene = scenes.scene_of(text_of("coverage/fan"), "fan")
        pair = [scene.triangles[n] for n in (3, 4)]
        least = randoms.shrunk(scene, lambda part: all(t in part.triangles for t in pair))
        self.assertEqual(least.triangles, pair)

    def test_a_seed_gives_the_same_scene(self) -> None:
        first, again, other = (randoms.scene_of_seed("mid", seed, 8, [1, 4]) for seed in (3, 3, 4))
        self.assertEqual(first, again)
        self.assertNotEqual(first, other)

    def test_corners_keep_to_the_bits(self) -> None:
        for kind in randoms.KINDS:
            scene = randoms.scene_of_seed(kind, 1, 4, [1, 4])
            self.assertEqual(scene.rounded(4), scene)


class Ends(Folder):
    def setUp(self) -> None:
        super().setUp()
        self.addCleanup(kill_processes_of, SLEEP)  # so that one test's failure is no other's

    def hanging_driver(self) -> str:
        return "sh " + self.write("hang.sh", f'case "$*" in *--info*) exec {EXACT} --info;; esac\nexec {SLEEP}\n')

    def count_lines(self, path: str) -> int:
        if not os.path.exists(path):
            return 0
        with open(path, encoding="utf-8") as file:
            return len(file.readlines())

    def test_a_run_that_is_killed_resumes(self) -> None:
        driver = f"{FAULTY} hang"
        words = ("--include", "^coverage/d", "--modes", "native")
        process = subprocess.Popen(self.words(driver, *words, "--timeout", "1000"), stdout=subprocess.DEVNULL,
                                   stderr=subprocess.DEVNULL)
        journal = self.path("out/journal.jsonl")
        deadline = time.monotonic() + 300
        while time.monotonic() < deadline and not (processes_of(SLEEP) and self.count_lines(journal) > 1):
            time.sleep(0.05)
        process.send_signal(signal.SIGTERM)
        self.assertEqual(process.wait(300), 2)
        while time.monotonic() < deadline and processes_of(SLEEP):
            time.sleep(0.05)
        self.assertEqual(processes_of(SLEEP), [])
        with open(journal, "a", encoding="utf-8") as file:
            file.write('{"name": "cut o')  # as where the machine went down
        with open(journal, encoding="utf-8") as file:
            done = [json.loads(line)["name"] for line in file.readlines()[1:-1]]
        self.assertGreater(len(done), 0)
        self.assertEqual(self.run_on(driver, *words, "--timeout", "10", "--resume").returncode, 1)
        self.assertEqual(set(self.statuses()), {"Pass", "Timeout"})
        with open(journal, encoding="utf-8") as file:
            again = [json.loads(line)["name"] for line in file.readlines()[1:]]
        self.assertEqual(again[:len(done)], done)
        self.assertEqual(sorted(again), sorted(self.trials()))

    def test_a_killed_runner_takes_its_drivers_with_it(self) -> None:
        process = subprocess.Popen(self.words(self.hanging_driver(), "--include", SMALL, "--modes", "native"),
                                   stdout=subprocess.DEVNULL)
        deadline = time.monotonic() + 300
        while time.monotonic() < deadline and not processes_of(SLEEP):
            time.sleep(0.05)
        self.assertTrue(processes_of(SLEEP))
        process.kill()
        process.wait()
        while time.monotonic() < deadline and processes_of(SLEEP):
            time.sleep(0.05)
        self.assertEqual(processes_of(SLEEP), [])

    def test_a_driver_that_starts_while_the_runner_is_killed_ends(self) -> None:
        started, killed = self.path("started"), self.path("killed")
        os.mkdir(self.path("bin"))
        slow = self.write("bin/setpriv", "#!/bin/sh\n"
                          f'case "$*" in *--info*) ;; *hang.sh*) echo $$ >>{started}\n'
                          f"while [ ! -e {killed} ]; do sleep 0.05; done;; esac\n"
                          f'exec {shutil.which("setpriv")} "$@"\n')
        os.chmod(slow, 0o755)
        process = subprocess.Popen(self.words(self.hanging_driver(), "--include", SMALL, "--modes", "native"),
                                   stdout=subprocess.DEVNULL,
                                   env={**os.environ, "PATH": self.path("bin") + os.pathsep + os.environ["PATH"]})
        deadline = time.monotonic() + 300
        while time.monotonic() < deadline and self.count_lines(started) < 2:
            time.sleep(0.05)
        process.kill()
        process.wait()
        self.write("killed", "")
        with open(started, encoding="utf-8") as file:
            drivers_started = [int(line) for line in file]
        self.assertEqual(len(drivers_started), 2)
        while time.monotonic() < deadline and any(command_of(number) not in ("", SLEEP) for number in drivers_started):
            time.sleep(0.05)
        self.assertEqual([command_of(number) for number in drivers_started], ["", ""])

    def test_a_journal_of_another_driver_is_refused(self) -> None:
        words = ("--include", "^subpixel/", "--modes", "native")
        self.run_on(EXACT, *words)
        done = self.run_on(f"{EXACT} --fault shift", *words, "--resume")
        self.assertEqual((done.returncode, done.stderr.count("\n")), (2, 1))

    def test_bad_input_is_told_in_one_line(self) -> None:
        lists = {
            "--baseline": ["coverage/fan@native,Bad\n", "no/case@native,Fail\n", "x\n",
                           "coverage/fan@native,Fail,odd\n"],
            "--caselist": ["no/case@native\n", "coverage/fan\n", "coverage/fan@odd\n", "# nothing\n"],
            "--skips": ["(\n"], "--flakes": ["[\n"],
        }
        for option, texts in lists.items():
            for text in texts:
                self.assert_refused(EXACT, option, self.write("list", text))
        for driver, *more in ((EXACT, "--baseline", self.path("none")), (EXACT, "--include", "no such case"),
                              (EXACT, "--include", "("), (EXACT, "--modes", "sideways"), ("/no/such/program",),
                              ("false",), ("true",), ("echo {}",), ("",), ("'",), (EXACT, "--env", "x"),
                              (f"{EXACT} --device 7",), (f"{EXACT} --fault none-such",)):
            self.assert_refused(driver, *more)
        done = subprocess.run([sys.executable, RUNNER, "run", "--output", self.path("out"), "--vulkan", "no-such"],
                              capture_output=True, text=True)
        self.assertEqual((done.returncode, done.stderr.count("\n")), (2, 1), done.stderr)
        done = subprocess.run([sys.executable, RUNNER, "html", self.write("results.json", "{}")],
                              capture_output=True, text=True)
        self.assertEqual((done.returncode, done.stderr.count("\n")), (2, 1), done.stderr)

    def assert_refused(self, driver: str, *words: str) -> None:
        done = self.run_on(driver, *words)
        self.assertEqual((done.returncode, done.stderr.count("\n")), (2, 1), (driver, words, done.stderr))


def main() -> None:
    """Runs the tests that are named, or all; prints what fails, and one line at the end."""
    names = [word for word in sys.argv[1:] if not word.startswith("-")]
    loader = unittest.defaultTestLoader
    module = sys.modules["__main__"]
    suite = loader.loadTestsFromNames(names, module) if names else loader.loadTestsFromModule(module)
    told = io.StringIO()
    result = unittest.TextTestRunner(sys.stderr if "-v" in sys.argv else told, verbosity=2).run(suite)
    if not result.wasSuccessful():
        print(told.getvalue())
    failed = len(result.failures) + len(result.errors)
    print(f"test_runner.py: {result.testsRun - failed} passed, {failed} failed")
    sys.exit(1 if failed else 0)


if __name__ == "__main__":
    main()
