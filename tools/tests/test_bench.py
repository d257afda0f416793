"""The benches: rows that are refused, layers and sequences, by a program that is planted; and the pictures of the growth."""

import os
import re
import sys
import tempfile
import unittest
import xml.etree.ElementTree as ElementTree
from unittest import mock

import browser
import helping
from abuflib.report import Fault

BENCH = os.path.join(helping.TOP, "bench")
sys.path.append(BENCH)

import bench  # noqa: E402
import diagrams  # noqa: E402
import figures  # noqa: E402
import growth  # noqa: E402
import reference  # noqa: E402
import scenes  # noqa: E402
import sequences  # noqa: E402

SVG = "{http://www.w3.org/2000/svg}"
REFUSAL = 'echo "pool full: 39000000 fragments, 8388608 nodes" >&2; exit 5'
# What a program answers: to the scene that is refused, to layers, to a pool of one node, and else.
PLANTED = '''#!/bin/sh
case "$*" in
"demo 20000 --nodes 8388608 --threads "*) {refused} ;;
*" --peel "*) echo layers ;;
*" --nodes 1 "*) echo "pool full: 25 fragments, 1 nodes" >&2; exit 5 ;;
*) echo drawn ;;
esac
'''
# Draws an image as the words of its camera, by sequence and by render.
CAMERAS = '''#!/bin/sh
if [ "$1" = sequence ]; then
    while read a b c d x y z; do echo "--turn=$a,$b,$c,$d --move=$x,$y,$z"; done < "$2"
else
    for word; do case "$word" in --turn=*) turn=$word ;; --move=*) echo "$turn $word" ;; esac; done
fi
'''


class Planted(unittest.TestCase):
    """Tests with a program of their own."""

    def setUp(self):
        room = tempfile.TemporaryDirectory()
        self.addCleanup(room.cleanup)
        self.folder = room.name

    def plant(self, name, text):
        path = helping.write(os.path.join(self.folder, name), text.encode())
        os.chmod(path, 0o755)
        return path

    def program(self, refused=REFUSAL, name="planted"):
        return self.plant(name, PLANTED.format(refused=refused))

    def measured(self, *words, abuf=None):
        """The status of a bench and the rows that it prints, by the names of their columns; and what else it prints."""
        done = helping.call(bench, "--table", "--cold", "--rounds", "2", "--abuf", abuf or self.program(), *words, folder=self.folder)
        lines = done.stdout.decode().splitlines()
        cells = [[cell.strip() for cell in line.strip("|").split("|")] for line in lines if line.startswith("| ")]
        others = [line for line in lines if not line.startswith("|")]
        return done.returncode, [dict(zip(cells[0], row)) for row in cells[1:]], others


class Rows(Planted):
    def test_a_refused_scene_has_the_figures_of_its_refusal(self):
        status, rows, _ = self.measured("--only", "refuse", "--threads", "1,3")
        self.assertEqual((status, [row["threads"] for row in rows]), (0, ["1", "3"]))
        for row in rows:
            self.assertEqual(row["fragments"], "39000000")
            rate = 39 / float(row["time"].removesuffix(" ms")) * 1000
            self.assertAlmostEqual(float(row["millions/s"]) / rate, 1, delta=0.1)

    def test_a_refused_scene_beside_another_program(self):
        other = self.program("exit 5", "other")  # which needs not tell why
        status, rows, _ = self.measured("--only", "refuse", "--threads", "1", "--beside", other)
        self.assertEqual((status, len(rows)), (0, 1))
        ours, theirs = (float(rows[0][column].removesuffix(" ms")) for column in ("time", "the other"))
        self.assertAlmostEqual(float(rows[0]["ratio"]), ours / theirs, delta=0.1 * ours / theirs + 0.01)

    def test_a_refusal_that_isnt_one(self):
        for refused, told in (("echo drawn", "status 0 in place of 5"),
                              (REFUSAL.replace("exit 5", "exit 3"), "status 3 in place of 5, pool full"),
                              ("echo x; " + REFUSAL, "a refused run wrote something"),
                              (REFUSAL.replace("39000000", "$$"), "isn't the same in every round"),
                              (REFUSAL.replace("39000000", "$6"), "isn't the same for every number of threads")):
            status, _, lines = self.measured("--only", "refuse", "--threads", "1,2", abuf=self.program(refused))
            found = [line for line in lines if re.search(f"^refuse: .*{told}", line)]
            self.assertEqual((status, len(found)), (1, 1), (refused, lines))
        status, _, lines = self.measured("--only", "refuse", "--beside", self.program("echo drawn", "other"))
        self.assertEqual((status, lines[-1]), (1, "refuse: other demo 20000: status 0 in place of 5, "))

    def test_fragments_that_a_pool_doesnt_tell(self):
        status, rows, _ = self.measured("--only", "peel,sequence,white", "--threads", "2")
        self.assertEqual((status, [(row["scene"], row["fragments"]) for row in rows]),
                         (0, [("peel", "25"), ("sequence", str(100 * 25)), ("white", "25")]))

    def test_a_text_ends_at_its_fault(self):
        for answer, wanted in (("exit 3", 0), ("exit 0", 1), ("echo x; exit 3", 1)):
            status, rows, lines = self.measured("--reading", "--only", "passed", "--bytes", "1000", "--threads", "1",
                                                abuf=self.plant("reads", f"#!/bin/sh\n{answer}\n"))
            self.assertEqual((status, len(rows)), (wanted, 1 - wanted))
            self.assertRegex(lines[0], "; best of 2, on 1 thread$")

    def test_runs_at_once(self):
        ran = os.path.join(self.folder, "ran")
        waits = self.plant("waits", f'#!/bin/sh\necho "${{*##* }}" >> {ran}\nsleep 0.3\n')
        status, rows, _ = self.measured("--at-once", "--only", "white", "--threads", "1,3", abuf=waits)
        self.assertEqual((status, [(row["scene"], row["number"]) for row in rows]), (0, [("white", "3")]))
        self.assertEqual(sorted(helping.read(ran).split()), [b"1"] * 8 + [b"3"] * 2)
        self.assertAlmostEqual(float(rows[0]["times the work"]), 3, delta=1)
        self.assertAlmostEqual(float(rows[0]["times as fast"]), 1, delta=0.5)
        status, rows, lines = self.measured("--at-once", "--only", "white", abuf=self.plant("fails", "#!/bin/sh\nexit 3\n"))
        self.assertEqual((status, rows), (1, []))
        self.assertRegex(lines[-1], r"^white: .*: statuses \[3\] in place of 0$")

    def test_sequences(self):
        words = ["--table", "--rounds", "1", "--threads", "1", "--pieces", "3", "--only", "lantern"]
        done = helping.call(sequences, *words, "--abuf", self.plant("cameras", CAMERAS), folder=self.folder)
        rows = [line for line in done.stdout.decode().splitlines() if line.startswith("| lantern | 100 | ")]
        self.assertEqual((done.returncode, len(rows)), (0, 3), done.stdout)

    def test_scenes(self):
        scenes.start(self.folder)
        task = scenes.SCENES["peel"](self.folder)
        scene = reference.read_obj(helping.read(os.path.join(self.folder, task.scene)))
        wanted = reference.read_obj(reference.demonstration(500)[0])
        self.assertEqual((scene.points, scene.libraries), (wanted.points, [b"four.mtl"]))
        task = scenes.SCENES["sequence"](self.folder)
        shots = reference.read_path(helping.read(os.path.join(self.folder, "lantern.path")))
        jobs = [reference.job_of(words.split()) for words in task.counted]
        self.assertEqual([(job.turn, job.shift) for job in jobs], [(shot.turn, shot.shift) for shot in shots])
        self.assertEqual((len(shots), task.scene), (100, "lantern.obj"))


COLUMNS = '''2026-01-02, A processor, 4 processors, load 0.1 at the start; pages of the usual size; best of 3, on 1 thread

series          work       unit       time   the rest  ns a unit  over log2
list            1024   fragment     1.0 ms     0.5 ms      500.0      50.00
image: the program doesn't tell the number of fragments
list            4096   fragment     3.0 ms     0.5 ms      600.0      50.00
'''
MARKDOWN = '''# Older

`bench/bench.py --only full`: 2025-01-01, An older processor, 1 processors; pages of the usual size; best of 9

| scene | threads |
|---|---:|
| full | 1 |

`bench/bench.py --table --growth`: 2026-01-02, A processor, 4 processors, load 0.1 at the start; a=b:c=d; best of 3

| series | work | unit | time | the rest | ns a unit | over log2 | the other | ratio |
|---|---:|---:|---:|---:|---:|---:|---:|---:|
| text | 2000 | line | 1.0 ms | 0.5 ms | 250.0 | 22.80 | 125.0 | 2.00 |
| text | 8000 | line | 2.5 ms | 0.5 ms | 250.0 | 19.28 | 125.0 | 2.00 |

| text | 9000 | line | 2.5 ms | 0.5 ms | 250.0 | 19.28 | 125.0 | 2.00 |
'''


class Tables(unittest.TestCase):
    def test_columns(self):
        found = growth.growth_of(COLUMNS, "x")
        self.assertEqual(found, ("2026-01-02, A processor, 4 processors, load 0.1 at the start, best of 3, on 1 thread",
                                 [("list", "fragment", [(1024, 500), (4096, 600)])]))

    def test_markdown_in_a_document(self):
        found = growth.growth_of(MARKDOWN, "x")
        self.assertEqual(found, ("2026-01-02, A processor, 4 processors, load 0.1 at the start, best of 3",
                                 [("text", "line", [(2000, 250), (8000, 250)])]))

    def test_the_table_of_the_readme(self):
        found = growth.growth_of(helping.read(growth.README).decode(), "x")
        self.assertEqual([series.name for series in found.series], list(scenes.SERIES))
        for series in found.series:
            self.assertEqual(series.unit, scenes.SERIES[series.name][0])

    def test_what_bench_prints(self):
        """The names of the columns, and the line above them."""
        given = mock.Mock(table=False, kind="growth", threads=[2], rounds=7, tunables="", beside=None, only=["list"])
        self.assertRegex(bench.told(given) + "\n", growth.MEASURED)
        self.assertTrue(bench.told(given).endswith("; best of 7, on 2 threads"))
        step = scenes.Step(1024, None, None)
        runs = [bench.Run(seconds, 0, 0, 0, "", b"") for seconds in (3e-3, 1e-3)]
        with mock.patch.dict(scenes.SERIES, {"list": ("fragment", lambda folder: [step, step._replace(work=2048)])}), \
                mock.patch("builtins.print") as printed:
            bench.measure_growth(mock.Mock(folder="", best=mock.Mock(side_effect=[[run] for run in 2 * runs])), given)
        text = "\n".join([bench.told(given), "", *(call.args[0] for call in printed.call_args_list)])
        steps = growth.growth_of(text, "x").series[0].steps
        self.assertEqual(steps, [(1024, 1953.1), (2048, 976.6)])

    def test_texts_without_a_growth(self):
        for old, new, told in (("series ", "scene ", "no table"), ("2026", "20", "no table"),
                               ("list  ", "stack ", "the series stack"),
                               ("500.0", "  far", "another form"), ("ns a unit", "us a unit", "another form"),
                               ("   4096", "   1024", "no steps of list"), ("500.0", " -0.1", "no picture")):
            self.assertIn(old, COLUMNS)
            with self.assertRaisesRegex(Fault, f"^x has .*{told}", msg=new):
                growth.growth_of(COLUMNS.replace(old, new), "x")
        with self.assertRaises(Fault):
            growth.growth_of("", "x")


def drawn():
    """The pictures of README, by their files."""
    return growth.pictures(growth.growth_of(helping.read(growth.README).decode(), "x"))


def texts(svg):
    return ["".join(element.itertext()) for element in ElementTree.fromstring(svg).iter(SVG + "text")]


class Pictures(unittest.TestCase):
    def test_committed_files_are_what_is_drawn(self):
        done = helping.run(os.path.join(BENCH, "growth.py"), "--check")
        self.assertEqual((done.returncode, done.stdout), (0, b"growth: 4 pictures, 0 failed\n"))

    def test_drawing_and_checking(self):
        with tempfile.TemporaryDirectory() as folder:
            path = helping.write(os.path.join(folder, "told"), COLUMNS.encode())
            words = [path, "--folder", folder]
            self.assertEqual(helping.call(growth, *words, "--check", folder=folder).returncode, 1)
            self.assertEqual(helping.call(growth, *words, folder=folder).returncode, 0)
            self.assertEqual(sorted(os.listdir(folder)), ["growth-list.svg", "told"])
            self.assertEqual(helping.call(growth, *words, "--check", folder=folder).returncode, 0)
            done = helping.run(os.path.join(BENCH, "growth.py"), "-", "--folder", folder, "--check",
                               data=COLUMNS.replace("600.0", "601.0").encode())
            self.assertEqual(done.returncode, 1)
            self.assertIn(b"WRONG growth-list.svg: isn't what growth.py draws\n", done.stdout)
            self.assertEqual(helping.call(growth, path + "2", folder=folder).returncode, 2)

    def test_each_is_small_and_stands_alone(self):
        for name, text in drawn().items():
            self.assertEqual(ElementTree.fromstring(text).tag, SVG + "svg")
            self.assertLess(len(text.encode()), diagrams.MOST_BYTES, name)
            self.assertNotRegex(text.replace('xmlns="http', ""), r"https?:|@import|href|<script|<image", name)
            self.assertIn("prefers-color-scheme:dark", text)
            for kind in set(re.findall(r'class="([^"]*)"', text)):  # each has its shape or its colours
                for word in kind.split():
                    self.assertIn("." + word, text, name)

    def test_the_readme_shows_each(self):
        shown = re.findall(r"!\[[^\]]+\]\(../docs/pictures/([\w-]+\.svg)\)", helping.read(growth.README).decode())
        self.assertEqual(sorted(shown), sorted(drawn()))
        self.assertEqual(list(growth.SERIES), list(scenes.SERIES))

    def test_each_tells_units_and_when_it_was_measured(self):
        for name, text in drawn().items():
            series = name.removeprefix("growth-").removesuffix(".svg")
            unit = scenes.SERIES[series][0]
            there = texts(text)
            title = growth.SERIES[series].title
            for wanted in (title, f"nanoseconds a {unit}", f"thousand {unit}s", "measured", "linear", "n log n"):
                self.assertIn(wanted, there, name)
            self.assertEqual(any("over the logarithm" in told for told in there), series in ("triangles", "list"))
            found = growth.growth_of(helping.read(growth.README).decode(), "x").measured
            self.assertTrue(" ".join(there).endswith(f"measured {found}"), there)

    def test_points_lie_where_the_times_are(self):
        (text,) = growth.pictures(growth.growth_of(COLUMNS, "x")).values()
        shown = ElementTree.fromstring(text)
        circles = [(float(element.get("cx")), float(element.get("cy"))) for element in shown.iter(SVG + "circle")]
        marks = {element.text: float(element.get("y")) - 4.5 for element in shown.iter(SVG + "text")}
        self.assertEqual(len(circles), 5)  # of the legend, two of the time, and two over the logarithm
        _, (left, first), (right, second), below, last = circles
        self.assertEqual([below[0], last[0], below[1]], [left, right, last[1]])
        self.assertAlmostEqual(second, marks["600"], delta=0.11)
        self.assertAlmostEqual(first - second, (marks["200"] - marks["600"]) / 4, delta=0.11)

    def test_growth_that_is_exact_lies_on_its_line(self):
        for name, law, time in (("text", growth.LINEAR, lambda k: 40.0), ("list", growth.LOG, lambda k: 40.0 * k)):
            steps = [growth.Step(2 ** k, time(k)) for k in range(10, 15)]
            text = growth.picture(growth.Series(name, "line", steps), "2026-01-02")
            curves = [element for element in ElementTree.fromstring(text).iter(SVG + "path") if element.get("d").count("L") == 4]
            self.assertEqual(len(curves), 3 if name == "text" else 6)
            for part in (curves[:3], curves[3:]):
                lines = {element.get("class"): element.get("d") for element in part}
                if part:
                    self.assertEqual(lines[growth.MEASURED_LINE], lines[law.kind], name)
                    self.assertEqual(len(set(lines.values())), 2)

    def test_marks(self):
        for most in (0.07, 1, 1.01, 4.9, 99, 100, 101, 249.9, 250.1, 3000, 54321.0):
            marks = growth.marks(most)
            self.assertTrue(marks[0] == 0 and marks[-2] <= most < marks[-1], (most, marks))
            self.assertTrue(4 <= len(marks) <= 7, (most, marks))
            self.assertEqual(len(set(map(growth.mark_text, marks))), len(marks))

    def test_lines_of_text(self):
        self.assertEqual(growth.wrapped("a, bb, ccc", 5), ["a, bb,", "ccc"])
        self.assertEqual(growth.wrapped("a, bb, ccc"), ["a, bb, ccc"])


@unittest.skipIf(browser.chromium() is None, "Chromium isn't installed (Debian's package chromium)")
class Shown(unittest.TestCase):
    def test_no_text_is_cut_off_or_lies_over_another(self):
        with tempfile.TemporaryDirectory() as folder, browser.Browser() as page:
            slow = growth.Series("list", "fragment", [growth.Step(4096, 9000), growth.Step(4194304, 10000)])
            for name, text in {**drawn(), "slow.svg": growth.picture(slow, "2026-01-02, A processor")}.items():
                path = helping.write(os.path.join(folder, name), text.encode())
                self.assertEqual(page.texts_of(path), (texts(text), []), name)


PARTS = "".join(f"before {part}\n<!-- figures: {part} -->\n\nold\n\n<!-- end of {part} -->\n" for part in figures.PARTS)


class Figures(Planted):
    def setUp(self):
        super().setUp()
        readme = helping.write(os.path.join(self.folder, "README.md"), PARTS.encode())
        for name, value in (("README", readme), ("PICTURES", self.folder)):
            patch = mock.patch.object(growth, name, value)
            patch.start()
            self.addCleanup(patch.stop)

    def readme(self):
        return helping.read(growth.README).decode()

    def call(self, *words, abuf=None):
        return helping.call(figures, *words, "--abuf", abuf or self.program(), folder=self.folder)

    def test_the_readme_has_each_part_with_its_command(self):
        text = helping.read(os.path.join(BENCH, "README.md")).decode()
        for part, command in figures.PARTS.items():
            found = re.search(rf"(?s)<!-- figures: {part} -->\n\n(.*?)\n\n<!-- end of {part} -->\n", text).group(1)
            first, *_, table = found.split("\n\n")
            self.assertEqual(first.split("`")[1].replace(" " + figures.BESIDE, ""), "bench/" + command)
            self.assertTrue(all(line.startswith("|") for line in table.splitlines()), part)

    def test_a_part_is_replaced(self):
        with mock.patch.dict(figures.PARTS, {"scenes": "bench.py --table --cold --only refuse --rounds 1"}):
            done = self.call("scenes", "--beside", self.program("exit 5", "other"))
        self.assertEqual(done.returncode, 0, done)
        part = self.readme().split("<!-- figures: scenes -->\n\n")[1].split("\n\n<!-- end of scenes -->\n")[0]
        self.assertRegex(part, r"^`bench/bench\.py --table --cold --only refuse --rounds 1 --beside OTHER`: \d{4}-")
        self.assertNotIn(self.folder, part)
        self.assertEqual(re.findall(r"(?m)^\| refuse \| (\d) \| 39000000 \|", part), ["1", "4"])
        self.assertEqual(len(re.findall("(?m)^old$", self.readme())), len(figures.PARTS) - 1)

    def test_a_command_that_fails_leaves_its_part(self):
        with mock.patch.dict(figures.PARTS, {"scenes": "bench.py --table --cold --only refuse --rounds 1"}):
            done = self.call("scenes", abuf=self.program("echo drawn"))
        self.assertEqual((done.returncode, self.readme()), (1, PARTS))
        self.assertIn(b"WRONG scenes: ", done.stdout)

    def test_the_growth_is_drawn(self):
        text = "\n".join(MARKDOWN.split("\n\n")[3:5]).replace("best of 3\n", "best of 3\n\n") + "\n"
        with mock.patch.object(figures, "measure", return_value=text):
            self.assertEqual(self.call("growth").returncode, 0)
        self.assertIn(text, self.readme())
        self.assertEqual([name for name in os.listdir(self.folder) if name.endswith(".svg")], ["growth-text.svg"])

    def test_shares_are_the_second_table(self):
        table = "| scene | reading |\n|---|---:|\n| a | 1 |\n"
        printed = "`bench/bench.py --x`: 2026-01-02; best of 1\n\n| scene | time |\n|---|---:|\n\nShares\n\n" + table
        self.assertEqual(figures.kept("shares", "bench.py --table", printed),
                         "`bench/bench.py --table`: 2026-01-02; shares of the time on one thread, in percent\n\n" + table)
        with self.assertRaises(Fault):
            figures.kept("scenes", "bench.py", "2026-01-02\n\nfull: failed\n")

    def test_a_part_that_is_missing_or_unknown(self):
        self.assertEqual(self.call("frames").returncode, 2)
        helping.write(growth.README, PARTS.replace("<!-- end of stored -->", "").encode())
        done = self.call(abuf="/bin/false")
        self.assertEqual((done.returncode, done.stdout), (2, b""))
        self.assertIn(b"doesn't have one part between <!-- figures: stored -->", done.stderr)


if __name__ == "__main__":
    unittest.main()
