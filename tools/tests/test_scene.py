"""Numbers, lines and values, by the tables of docs/FORMATS.md."""

import argparse
import os
import re
import unittest

import helping
from abuflib import scene


class Numbers(unittest.TestCase):
    def test_the_table_of_the_formats(self):
        text = helping.read(os.path.join(helping.TOP, "docs", "FORMATS.md")).decode()
        rows = re.findall(r"(?m)^\| `([^`]+)` \| (-?\d+|refused) \| (-?\d+|refused) \|$", text)
        self.assertGreater(len(rows), 5)
        for number, length, colour in rows:
            for k, wanted in ((scene.LENGTH, length), (scene.COLOUR, colour)):
                found = scene.scaled(number.encode(), k)
                self.assertEqual("refused" if found is None else str(found), wanted, number)

    def test_forms(self):
        for text in (b"1", b"-1.", b".5", b"+2.50", b"1e-3", b"1E+3", b"0e999", b"0" * 30):
            self.assertIsNotNone(scene.scaled(text, 1), text)
        for text in (b".", b"1e", b"0x1", b"nan", b"inf", b"1,5", b"", b"+", b"1e1000", b"0" * 31, b"1 ", b"\xd9\xa1"):
            self.assertIsNone(scene.scaled(text, 1), text)

    def test_halves_go_away_from_zero(self):
        self.assertEqual([scene.scaled(text, 1) for text in (b"0.5", b"-0.5", b"1.5", b"-1.5", b"0.49")], [1, -1, 2, -2, 0])

    def test_greatest(self):
        self.assertEqual(scene.scaled(b"2147483647.4", 1), scene.FARTHEST)
        self.assertIsNone(scene.scaled(b"2147483647.5", 1))


class Lines(unittest.TestCase):
    def test_tokens(self):
        data = b"v 1 2 # 3\n\n# no\n \tf\t1/2 \r\nusemtl  a # b \n\x0bv 1"
        found = list(scene.lines(data))
        self.assertEqual([line.number for line in found], [1, 4, 5, 6])
        self.assertEqual(found[0].arguments, [b"1", b"2"])
        self.assertEqual((found[1].keyword, found[1].arguments), (b"f", [b"1/2"]))
        self.assertEqual(found[2].rest, b"a # b")
        self.assertEqual(found[3].keyword, b"\x0bv")

    def test_keywords(self):
        for token in (b"v", b"vt", b"!", b"curv3"):
            self.assertTrue(scene.is_keyword(token))
        for token in (b"curv2", b"end", b"\xef\xbb\xbfv", b"\x0bv", b"\xc3\xa9"):
            self.assertFalse(scene.is_keyword(token))


class Values(unittest.TestCase):
    def test_turns(self):
        self.assertEqual(scene.turn_of("1024,-1024,0,-0"), (1024, -1024, 0, 0))
        for text in ("1,2,3", "0,0,0,0", "1025,0,0,0", "1,2,3,4,5", "+1,0,0,0", "1.0,0,0,0", "00001,0,0,0", ""):
            with self.assertRaises(argparse.ArgumentTypeError):
                scene.turn_of(text)

    def test_sizes(self):
        self.assertEqual(scene.size_of("4096x1024"), (4096, 1024))
        for text in ("4096x1025", "0x1", "4097x1", "4X4", "4x", "4x4x4", "-4x4", ""):
            with self.assertRaises(argparse.ArgumentTypeError):
                scene.size_of(text)

    def test_commands_of_an_example(self):
        text = helping.read(os.path.join(helping.EXAMPLES, "crossing.obj")).decode()
        found = scene.commands_of(text)
        self.assertEqual(len(found), 2)
        self.assertTrue(all(command.startswith("abuf render --size 40x30 ") for command in found))
        self.assertEqual(scene.commands_of("v 1 2 3\n# abuf render\n"), [])


if __name__ == "__main__":
    unittest.main()
