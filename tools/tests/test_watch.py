"""What a watched drawing tells, and its runs where the program is built."""

import os
import unittest

import helping
import watch
from abuflib.report import Fault

TOLD = b"entries 0 to 900\nlooks: whole 60 unlinked 3 more 7\n"


class Looks(unittest.TestCase):
    def test_what_a_run_tells(self):
        self.assertEqual(watch.looks_of(TOLD), watch.Looks(0, 900, 60, 3, 7))
        for text in (b"", b"pool full: 3 fragments, 2 nodes\n", TOLD + b"x"):
            with self.assertRaises(Fault):
                watch.looks_of(text)

    def test_what_can_not_be(self):
        looks = watch.looks_of(TOLD)
        self.assertIsNone(watch.fault_of(looks))
        self.assertIn("falls", watch.fault_of(looks._replace(first=901)))

    def test_a_tally(self):
        seen = watch.looks_of(TOLD)
        still = watch.Looks(9, 9, 4, 0, 0)
        self.assertEqual(watch.tally([seen, still, seen]), watch.Tally(3, 2, 2, 2, 144))

    def test_a_program_that_is_missing(self):
        done = helping.run("watch.py", "--watch", os.path.join(helping.TOP, "none"))
        self.assertEqual((done.returncode, done.stdout), (2, b""))


@unittest.skipUnless(os.access(watch.BUILT, os.X_OK), "there is no abuf_watch: rt run in crates/abuf_watch builds it")
class Runs(unittest.TestCase):
    def test_the_report_is_the_same_for_every_number_of_threads(self):
        found = watch.find(None)
        reports = {watch.watch(found, [*watch.PLAIN, "--threads", threads], watch.scene())[0] for threads in ("1", "2", "5", "64")}
        self.assertEqual(len(reports), 1)
        lines = reports.pop().split(b"\n")
        self.assertEqual([line.split()[0] for line in lines[:-1]], 64 * [b"pixel"] + [b"fragments", b"longest", b"sum"])

    def test_a_full_pool_is_refused(self):
        answer = watch.find(None).run([*watch.PLAIN, "--nodes", "10"], watch.scene(), watch.EXAMPLES)
        self.assertEqual((answer.status, answer.out), (5, b""))
        self.assertRegex(answer.err, rb"^pool full: \d+ fragments, 10 nodes\n$")


if __name__ == "__main__":
    unittest.main()
