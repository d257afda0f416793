"""Images: PAM, PPM and PNG."""

import io
import random
import struct
import unittest
import zlib

import helping  # noqa: F401
from abuflib import pam
from abuflib.report import Fault

SMALL = pam.Image(2, 1, 255, bytes([1, 2, 3, 250, 251, 252]))
DEEP = pam.Image(1, 2, 65535, bytes.fromhex("0001fffe8000123456789abc"))


def noise(width, height, maxval, seed=1):
    rng = random.Random(seed)
    return pam.Image(width, height, maxval, rng.randbytes(width * height * (3 if maxval < 256 else 6)))


def png(width, height, bits, colour, rows, interlace=0, palette=b""):
    """A PNG whose rows, with their filters, are given."""
    head = struct.pack(">IIBBBBB", width, height, bits, colour, 0, 0, interlace)
    more = pam.chunk(b"PLTE", palette) if palette else b""
    return pam.SIGNATURE + pam.chunk(b"IHDR", head) + more + pam.chunk(b"IDAT", zlib.compress(b"".join(rows))) \
        + pam.chunk(b"IEND", b"")


class Netpbm(unittest.TestCase):
    def test_bytes_of_a_pam(self):
        self.assertEqual(pam.to_pam(SMALL), b"P7\nWIDTH 2\nHEIGHT 1\nDEPTH 3\nMAXVAL 255\nTUPLTYPE RGB\nENDHDR\n"
                                            b"\1\2\3\xfa\xfb\xfc")

    def test_what_is_written_is_read(self):
        for image in (SMALL, DEEP):
            self.assertEqual(pam.read(pam.to_pam(image)), image)

    def test_a_stream(self):
        images = [noise(5, 4, 255, seed) for seed in range(3)]
        data = b"".join(map(pam.to_pam, images))
        self.assertEqual(list(pam.stream(io.BytesIO(data))), images)
        self.assertEqual(list(pam.stream(io.BytesIO(b""))), [])
        for cut in (1, 60, 61, len(data) // 3 + 1):
            with self.assertRaises(Fault):
                list(pam.stream(io.BytesIO(data[:-cut])))

    def test_ppm_and_pgm(self):
        self.assertEqual(pam.read(b"P6\n# a comment\n2 1\n255\n\1\2\3\xfa\xfb\xfc"), SMALL)
        self.assertEqual(pam.read(b"P5 2 1 255\n\x07\x09"), pam.Image(2, 1, 255, bytes([7, 7, 7, 9, 9, 9])))

    def test_alpha_is_left_out(self):
        head = b"P7\nWIDTH 1\nHEIGHT 1\nDEPTH %d\nMAXVAL 255\nTUPLTYPE X\nENDHDR\n"
        self.assertEqual(pam.read(head % 4 + b"\1\2\3\4").values, b"\1\2\3")
        self.assertEqual(pam.read(head % 2 + b"\5\4").values, b"\5\5\5")
        deep = head.replace(b"255", b"65535") % 2 + b"\1\2\3\4"
        self.assertEqual(pam.read(deep).values, b"\1\2" * 3)

    def test_faults(self):
        for data in (b"", b"P3 1 1 255 0 0 0", b"P7\nWIDTH 1\nENDHDR\n", pam.to_pam(SMALL)[:-1], pam.SIGNATURE + b"x"):
            with self.assertRaises(Fault):
                pam.read(data)

    def test_numbers(self):
        self.assertEqual(list(pam.numbers(DEEP.values, 65535)), [1, 65534, 32768, 0x1234, 0x5678, 0x9abc])
        self.assertEqual(pam.from_numbers(1, 2, 65535, pam.numbers(DEEP.values, 65535)), DEEP)
        self.assertEqual(DEEP.at(0, 1), (0x1234, 0x5678, 0x9abc))
        self.assertEqual(SMALL.at(1, 0), (250, 251, 252))

    def test_enlarging(self):
        self.assertEqual(pam.enlarged(SMALL, 2), pam.Image(4, 2, 255, (b"\1\2\3" * 2 + b"\xfa\xfb\xfc" * 2) * 2))


class Png(unittest.TestCase):
    def test_what_is_written_is_read(self):
        for image in (SMALL, DEEP, noise(9, 7, 255), noise(9, 7, 65535)):
            for is_small in (True, False):
                self.assertEqual(pam.read(pam.to_png(image, is_small)), image)

    def test_each_filter(self):
        image = noise(4, 2, 255)
        above, row = image.rows()
        for kind, guess in enumerate(pam.guesses(row, above, 3)):
            rows = [b"\0" + above, bytes([kind]) + bytes((a - b) & 255 for a, b in zip(row, guess))]
            self.assertEqual(pam.from_png(png(4, 2, 8, 2, rows)), image, f"filter {kind}")

    def test_the_filters_by_hand(self):
        # Each filter on a row (30, 60) of grey below (10, 20): none, left, above, their mean, Paeth's choice.
        for kind, bytes_of_row in enumerate([(30, 60), (30, 30), (20, 40), (25, 35), (20, 30)]):
            found = pam.from_png(png(2, 2, 8, 0, [b"\0\x0a\x14", bytes([kind, *bytes_of_row])]))
            self.assertEqual([found.at(0, 1)[0], found.at(1, 1)[0]], [30, 60], f"filter {kind}")

    def test_kinds(self):
        self.assertEqual(pam.from_png(png(2, 1, 8, 6, [b"\0\1\2\3\4\xfa\xfb\xfc\xfd"])), SMALL)
        self.assertEqual(pam.from_png(png(2, 1, 8, 0, [b"\0\7\11"])).values, b"\7\7\7\11\11\11")
        self.assertEqual(pam.from_png(png(2, 1, 8, 3, [b"\0\1\0"], palette=b"\xfa\xfb\xfc\1\2\3")), SMALL)
        self.assertEqual(pam.from_png(png(2, 1, 4, 3, [b"\0\x10"], palette=b"\xfa\xfb\xfc\1\2\3")), SMALL)
        self.assertEqual(pam.from_png(png(3, 1, 1, 0, [b"\0\xa0"])).values, b"\xff" * 3 + b"\0" * 3 + b"\xff" * 3)
        self.assertEqual(pam.from_png(png(1, 1, 16, 4, [b"\0\1\2\3\4"])), pam.Image(1, 1, 65535, b"\1\2" * 3))

    def test_interlaced(self):
        # The pass of a pixel, by the pattern of eight by eight that the standard prints.
        pattern = ["16462646", "77777777", "56565656", "77777777", "36463646", "77777777", "56565656", "77777777"]
        for width, height in ((1, 1), (3, 2), (5, 5), (8, 8), (13, 9)):
            image = noise(width, height, 255)
            rows = []
            for number in "1234567":
                for y in range(height):
                    row = b"".join(bytes(image.at(x, y)) for x in range(width) if pattern[y % 8][x % 8] == number)
                    rows += [b"\0" + row] if row else []
            self.assertEqual(pam.from_png(png(width, height, 8, 2, rows, interlace=1)), image)

    def test_broken(self):
        whole = pam.to_png(noise(9, 7, 255))
        for cut in (20, 40, len(whole) // 2):
            with self.assertRaises(Fault):
                pam.from_png(whole[:cut])


if __name__ == "__main__":
    unittest.main()
