"""Random scenes, many of whose corners and edges lie on samples, and the smallest part of one that still differs."""

from __future__ import annotations

import random
from collections.abc import Callable
from dataclasses import dataclass, replace

from testing.scenes import OFFSETS, Place, Scene, Triangle, nearest

SIZES = ((8, 8), (32, 32), (67, 65), (96, 40))
TRIANGLES = 200  # of a scene
PAINT = (65535, 65535, 65535, 32768)


@dataclass(frozen=True)
class Kind:
    """How far corners lie from the image, in pixels, and whether triangles are slivers."""

    reach: int
    are_slivers: bool = False


KINDS = {"near": Kind(16), "mid": Kind(2000), "slivers": Kind(300, True), "far": Kind(3900)}


class Maker:
    """Makes a scene from a seed; the same seed gives the same scene."""

    def __init__(self, kind: str, seed: int, bits: int, samples: list[int]) -> None:
        self.chance = random.Random(f"{kind} {seed} {bits}")
        self.kind, self.step = KINDS[kind], 2 ** (8 - bits)
        self.samples = self.chance.choice(samples)
        self.width, self.height = self.chance.choice(SIZES)
        self.reach = 256 * self.kind.reach

    def sample(self) -> Place:
        """The place of a sample of the image."""
        right, down = self.chance.choice(OFFSETS[self.samples])
        return (256 * self.chance.randrange(self.width) + 128 + 16 * right,
                256 * self.chance.randrange(self.height) + 128 + 16 * down)

    def on_grid(self, low: int, high: int) -> int:
        return nearest(self.chance.randint(low, high), self.step)

    def corner(self) -> Place:
        """A sample, a place near the image, or one anywhere within reach."""
        how = self.chance.randrange(3)
        if how == 0:
            return self.sample()
        beyond = min(self.reach, 4096) if how == 1 else self.reach
        return self.on_grid(-beyond, 256 * self.width + beyond), self.on_grid(-beyond, 256 * self.height + beyond)

    def through(self) -> tuple[Place, Place]:
        """The ends of an edge that runs exactly through a sample, by whole steps on either side of it."""
        x, y = self.sample()
        dx, dy = 0, 0
        while dx == dy == 0:
            dx, dy = self.on_grid(-4096, 4096), self.on_grid(-4096, 4096)
        most = max(1, min(self.reach // max(abs(dx), abs(dy)), 2000))
        before, after = self.chance.randint(1, most), self.chance.randint(1, most)
        return (x - before * dx, y - before * dy), (x + after * dx, y + after * dy)

    def triangle(self) -> Triangle:
        if self.kind.are_slivers:
            a, b = self.through()
            c = (b[0] + self.step * self.chance.choice((-16, -2, -1, 1, 2, 3, 16)),
                 b[1] + self.step * self.chance.choice((-1, 0, 1, 2)))
        elif self.chance.random() < 0.6:
            a, b = self.through()
            c = self.corner()
        else:
            a, b, c = self.corner(), self.corner(), self.corner()
        corners = [a, b, c]
        self.chance.shuffle(corners)
        return Triangle((corners[0], corners[1], corners[2]), (0, 0, 0), PAINT)

    def scene(self) -> Scene:
        return Scene(self.width, self.height, self.samples, (0, 0, 0), [self.triangle() for _ in range(TRIANGLES)])


def scene_of_seed(kind: str, seed: int, bits: int, samples: list[int]) -> Scene:
    """A scene whose corners need at most so many subpixel bits, with one of these numbers of samples."""
    return Maker(kind, seed, bits, samples).scene()


def shrunk(scene: Scene, still_differs: Callable[[Scene], bool]) -> Scene:
    """The scene with as few triangles as still differ: none of them can be left out."""
    triangles, size = scene.triangles, len(scene.triangles)
    while size > 0:
        start = 0
        while start < len(triangles):
            rest = triangles[:start] + triangles[start + size:]
            if rest and still_differs(replace(scene, triangles=rest)):
                triangles = rest
            else:
                start += size
        size //= 2
    return replace(scene, triangles=triangles)
