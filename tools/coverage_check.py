#!/usr/bin/env python3
"""Checks the coverage of an abuf program on random triangles, many of whose edges run exactly
through samples.

    coverage_check.py [--edges N] [--samples S,S] [--seed S] [--jobs J] [--abuf PATH]

    coverage_check.py --edges 20000 --samples 4,8 --jobs 2

What the program covers is compared with the rule in its other form, reckoned here: of a triangle in
positive order, an edge from a to b accepts a sample where (E, ay - by, bx - ax) is
lexicographically greater than (0, 0, 0). That is the top-left rule as it follows from moving the
sample by an infinitely small amount to the right and a still smaller one downwards.

Each scene has hundreds of triangles, from those within a pixel to those whose corners lie 2^30 and
more from the image in 1/256 pixel, and it is looked at in one of two ways.

- An image: each triangle is a film that adds 16 to the value of a sample that it covers, in one of
  the three channels. So the values of a pixel tell how many samples all triangles cover in it.
- The report of one pixel, which tells the mask of each triangle there.

The check goes on until the wanted number of samples, an equal share of each pattern, lay exactly on
an outline, and says how many they were. The status is 0, or 1 where a scene differs.
"""

import multiprocessing
import os
import random
import tempfile
from dataclasses import dataclass

from abuflib import pam, program, report
from reference import OFFSETS

# The films of a channel add up without rounding as long as their sum is below 2048.
FILM = 16
MOST_FILMS = 128
LIBRARY = "".join(
    f"newmtl {name}\nKd {colour}\nd 0.00024414\n"
    for name, colour in (("m0", "1 0 0"), ("m1", "0 1 0"), ("m2", "0 0 1"))
)


# ---- scenes


def halvings_of(height):
    """How often the height can be halved."""
    return (height & -height).bit_length() - 1


def scene_of(triangles, height):
    """A scene whose triangles have these corners, in 1/256 pixel from the middle of the image.

    Seen by `words_of`, 1/256 pixel is 2 / 2^k units of 1/65536, with k the halvings of the height.
    """
    k = halvings_of(height)
    lines = ["mtllib films.mtl"]
    for number, corners in enumerate(triangles):
        for x, y in corners:
            x, y = 2 * x >> k, -2 * y >> k
            lines.append(f"v {x * 5 ** 16}e-16 {y * 5 ** 16}e-16 0")
        lines += [f"usemtl m{number % 3}", "f -3 -2 -1"]
    return ("\n".join(lines) + "\n").encode()


def words_of(command, width, height, samples, nodes):
    """A command whose camera stands so near that coordinates are huge on the screen."""
    away = 625 * (height >> halvings_of(height))
    return [*command, "--size", f"{width}x{height}", "--samples", str(samples), "--maxval", "65535",
            "--nodes", str(nodes), "--focal", "16", "--near", "0.0625", f"--move=0,0,-{away}e-4"]


@dataclass
class Maker:
    """Random triangles, in 1/256 pixel from the image's middle."""

    rng: random.Random
    width: int
    height: int
    offsets: list
    pixel: tuple | None = None  # the pixel near which they lie, or None for the whole image

    def sample(self):
        """A sample in the image or a little beside it, often at its sides."""
        rng = self.rng
        if self.pixel:
            i, j = (part + rng.choice([0, 0, 0, 0, -1, 1]) for part in self.pixel)
        else:
            i, j = (rng.choice([-1, 0, rng.randrange(side), rng.randrange(side), side - 1, side])
                    for side in (self.width, self.height))
        right, down = rng.choice(self.offsets)
        return (256 * i + 128 + 16 * right - 128 * self.width,
                256 * j + 128 + 16 * down - 128 * self.height)

    def reach(self):
        """How far out the coordinates of a scene can be."""
        return 2 ** 30 << halvings_of(self.height)

    def most(self, start, step, reach):
        """How many such steps from there stay below this."""
        return (reach - 1 - max(map(abs, start))) // max(map(abs, step))

    def steps(self, most):
        """A number of steps up to the most: a few, or near the most, or in between."""
        rng = self.rng
        kind = rng.randrange(8)
        if kind < 4:
            return min(most, rng.randint(0, 1 if self.pixel else 3))
        if kind < 6:
            return most - rng.randrange(1 + most // 4)
        return rng.randrange(1 + min(most, 2 ** rng.randint(1, 36)))

    def step(self, start):
        """A way from one sample to another, which isn't nothing."""
        rng = self.rng
        other = start
        if rng.randrange(2):
            other = self.sample()
        if other == start:
            right, down = rng.choice([(1, 0), (0, 1), (1, 1), (1, -1), (2, 1), (1, 2), (2, -1),
                                      (1, -2), (3, 1), (1, 3)])
            return 256 * right, 256 * down
        return other[0] - start[0], other[1] - start[1]

    def along(self, start, step, side):
        reach = self.rng.choice([2 ** 29, self.reach()])
        count = side * self.steps(self.most(start, step, reach))
        return start[0] + count * step[0], start[1] + count * step[1]

    def triangle(self):
        """An edge that runs through samples, and a third corner from which another often does."""
        rng = self.rng
        start = self.sample()
        step = self.step(start)
        first, second = self.along(start, step, -1), self.along(start, step, 1)
        third = self.sample()
        kind = rng.randrange(4)
        if kind == 0:
            third = self.along(third, self.step(third), rng.choice([1, -1]))
        elif kind == 1 and third != first:
            away = third[0] - first[0], third[1] - first[1]
            if self.most(third, away, self.reach()) > 0:
                third = third[0] + away[0], third[1] + away[1]
        corners = [first, second, third]
        if rng.randrange(16) == 0:
            away = rng.choice([16, 256, 4096])
            corners[rng.randrange(3)] = tuple(
                16 * rng.randint(-away, away) for _ in range(2))
        rng.shuffle(corners)
        return corners


# ---- the rule


def directed_edges(corners):
    """The edges of a triangle in positive order, or none where it has no area. Each is its start,
    its way, and whether it accepts a sample that lies on it."""
    (ax, ay), (bx, by), (cx, cy) = corners
    area = (bx - ax) * (cy - ay) - (by - ay) * (cx - ax)
    if area < 0:
        bx, by, cx, cy = cx, cy, bx, by
    edges = [
        (ax, ay, bx - ax, by - ay), (bx, by, cx - bx, cy - by), (cx, cy, ax - cx, ay - cy)
    ]
    return [(x, y, u, v, (-v, u) > (0, 0)) for x, y, u, v in edges] if area else []


def mask_at(edges, places):
    """The mask of a triangle of some area over a pixel's samples, and how many of the samples lie
    on its outline."""
    mask = on_outline = 0
    bit = 1
    for sx, sy in places:
        is_covered, is_on = True, False
        for x, y, u, v, accepts_zero in edges:
            value = u * (sy - y) - v * (sx - x)
            if value < 0:
                break
            if value == 0:
                is_on = True
                is_covered = is_covered and accepts_zero
        else:
            mask += bit * is_covered
            on_outline += is_on
        bit *= 2
    return mask, on_outline


def places_of(width, height, offsets, i, j):
    """The samples of a pixel, in 1/256 pixel from the image's middle."""
    return [(256 * i + 128 + 16 * right - 128 * width, 256 * j + 128 + 16 * down - 128 * height)
            for right, down in offsets]


# ---- one scene


@dataclass
class Found:
    """What a scene showed."""

    samples: int = 0  # those looked at
    on_outline: int = 0
    far_on_outline: int = 0  # those of triangles with a coordinate of 2^29 or more
    triangles: int = 0
    fault: str = ""


class Disagreement(Exception):
    pass


def run(found, folder, words, scene):
    answer = found.run(words, scene, folder)
    if answer.status != 0:
        raise Disagreement(f"status {answer.status} {answer.err!r}\n  words: {words}\n"
                           f"  scene: {scene!r}")
    return answer.out


def masks_of_report(report):
    """The masks of the fragments by primitive number."""
    lines = report.decode().splitlines()
    count = int(lines[0].removeprefix("fragments "))
    words = [line.split() for line in lines[1:count + 1]]
    return {int(prim): int(mask) for _, prim, _, mask in words}


def is_far(corners):
    return max(abs(part) for corner in corners for part in corner) >= 2 ** 29


def count_outline(found, corners, on_outline):
    found.on_outline += on_outline
    if is_far(corners):
        found.far_on_outline += on_outline


def blame(abuf, folder, triangles, maker, samples, i, j):
    """A text on the first of the triangles whose mask differs in this pixel when drawn alone."""
    words = words_of(["pick", f"{i},{j}"], maker.width, maker.height, samples, 8388608)
    for corners in triangles:
        scene = scene_of([corners], maker.height)
        edges = directed_edges(corners)
        places = places_of(maker.width, maker.height, maker.offsets, i, j)
        wanted = mask_at(edges, places)[0] if edges else 0
        got = masks_of_report(run(abuf, folder, words, scene)).get(0, 0)
        if got != wanted:
            return (f"a triangle of its own differs: mask {got}, wanted {wanted}\n"
                    f"  words: {words}\n  scene: {scene!r}\n"
                    f"  corners in 1/256 pixel from the middle: {corners}")
    return f"no triangle of its own differs\n  triangles: {triangles}"


def check_image(abuf, folder, rng, samples):
    """Films over an image, compared by the number of covered samples in each pixel and channel."""
    width, height = rng.randint(1, 24), rng.choice([1, 2, 3, 4, 5, 7, 8, 9, 11, 12, 13, 16, 16, 17])
    maker = Maker(rng, width, height, OFFSETS[samples])
    triangles = [maker.triangle() for _ in range(3 * MOST_FILMS)]
    counts = [0] * (3 * width * height)
    found = Found(len(triangles) * samples * width * height, triangles=len(triangles))
    pixels = [places_of(width, height, maker.offsets, place % width, place // width)
              for place in range(width * height)]
    for number, corners in enumerate(triangles):
        edges = directed_edges(corners)
        if not edges:
            continue
        total = 0
        for place, places in enumerate(pixels):
            mask, on_outline = mask_at(edges, places)
            counts[3 * place + number % 3] += mask.bit_count()
            total += on_outline
        count_outline(found, corners, total)
    words = words_of(["render"], width, height, samples, len(triangles) * width * height)
    scene = scene_of(triangles, height)
    image = run(abuf, folder, words, scene)
    wanted = b"".join((count * FILM // samples).to_bytes(2, "big") for count in counts)
    if image != pam.header(width, height, 65535) + wanted:
        values = image[-len(wanted):]
        at = next((n for n in range(len(wanted)) if values[n] != wanted[n]), 0) // 6
        found.fault = (f"pixel ({at % width}, {at // width}): "
                       + blame(abuf, folder, triangles, maker, samples, at % width, at // width)
                       + f"\n  words of all: {words}")
    return found


def check_pixel(abuf, folder, rng, samples):
    """Triangles near one pixel, compared by their masks."""
    width, height = rng.choice([1, 2, 3, 9, 12]), rng.choice([1, 2, 3, 5, 8, 10])
    if rng.randrange(8) == 0:
        width, height = rng.choice([(4096, 1), (1, 4095), (333, 16)])
    pixel = tuple(rng.choice([0, rng.randrange(side), side - 1]) for side in (width, height))
    maker = Maker(rng, width, height, OFFSETS[samples], pixel)
    triangles = [maker.triangle() for _ in range(3000 if width * height < 1000 else 500)]
    found = Found(len(triangles) * samples, triangles=len(triangles))
    places = places_of(width, height, maker.offsets, *pixel)
    wanted = {}
    for number, corners in enumerate(triangles):
        edges = directed_edges(corners)
        mask, on_outline = mask_at(edges, places) if edges else (0, 0)
        if mask:
            wanted[number] = mask
        count_outline(found, corners, on_outline)
    words = words_of(["pick", "{},{}".format(*pixel)], width, height, samples,
                     len(triangles) * width * height)
    got = masks_of_report(run(abuf, folder, words, scene_of(triangles, height)))
    if got != wanted:
        differing = [corners for number, corners in enumerate(triangles)
                     if got.get(number, 0) != wanted.get(number, 0)]
        found.fault = (f"pixel {pixel}, {len(differing)} triangles differ: "
                       + blame(abuf, folder, differing, maker, samples, *pixel)
                       + f"\n  words of all: {words}")
    return found


def check_scene(task):
    abuf, folder, samples, seed, number = task
    rng = random.Random(f"{seed} {samples} {number}")
    check = check_image if number % 2 else check_pixel
    try:
        found = check(abuf, folder, rng, samples)
    except Disagreement as disagreement:
        found = Found(fault=str(disagreement))
    if found.fault:
        found.fault = f"scene {number} of {samples} samples, seed {seed}\n  {found.fault}"
    return found


# ---- all scenes


def check_pattern(pool, abuf, folder, samples, seed, wanted):
    """Scenes of this pattern until so many samples lay on an outline, all told together."""
    total, told = Found(), report.Report("scenes")
    number = 0
    while total.on_outline < wanted:
        tasks = [(abuf, folder, samples, seed, number + i) for i in range(16)]
        number += len(tasks)
        for found in pool.imap(check_scene, tasks):
            if found.fault:
                total.fault = found.fault
                return total
            total.samples += found.samples
            total.triangles += found.triangles
            total.on_outline += found.on_outline
            total.far_on_outline += found.far_on_outline
        told.progress(number)
    told.line(f"{samples} samples a pixel: {number} scenes, {total.triangles} triangles and "
              f"{total.samples} samples agree; {total.on_outline} samples lay exactly on an outline, "
              f"{total.far_on_outline} of them on one that reaches 2^29")
    return total


def patterns_of(text):
    patterns = [int(number) for number in text.split(",")]
    if not set(patterns) <= set(OFFSETS):
        raise ValueError
    return patterns


def main():
    parser = report.words(__doc__)
    parser.add_argument("--edges", type=int, default=1000000, metavar="N",
                        help="samples on outlines to reach (1000000)")
    parser.add_argument("--samples", type=patterns_of, default=list(OFFSETS), metavar="S,S",
                        help="samples a pixel (1,2,4,8,16)")
    parser.add_argument("--seed", type=int, default=1, metavar="S", help="decides the scenes (1)")
    parser.add_argument("--jobs", type=int, default=os.cpu_count(), metavar="J",
                        help="processes at one time (one a processor)")
    program.add_option(parser)
    given = parser.parse_args()
    abuf = program.find(given.abuf)
    totals = []
    with tempfile.TemporaryDirectory() as folder, multiprocessing.Pool(given.jobs) as pool:
        with open(os.path.join(folder, "films.mtl"), "w") as file:
            file.write(LIBRARY)
        share = -(-given.edges // len(given.samples))
        for samples in given.samples:
            totals.append(check_pattern(pool, abuf, folder, samples, given.seed, share))
            if totals[-1].fault:
                print(totals[-1].fault)
                return report.WRONG
    print(f"in all {sum(total.triangles for total in totals)} triangles and "
          f"{sum(total.samples for total in totals)} samples agree; "
          f"{sum(total.on_outline for total in totals)} samples lay exactly on an outline, "
          f"{sum(total.far_on_outline for total in totals)} of them on one that reaches 2^29")
    return report.WELL


if __name__ == "__main__":
    report.end(main)
