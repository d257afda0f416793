"""One case on one driver: drawn in a process of its own, compared, and given a verdict."""

from __future__ import annotations

import base64
import signal
import tempfile
from dataclasses import asdict, dataclass, field
from functools import lru_cache

from testing.cases import Case
from testing.drivers import MOST_KEPT, NOT_SUPPORTED, TOP, Driver, Oracle
from testing.faults import read_bytes
from testing.images import (Image, difference_picture, differing, image_of, picture, window_about)
from testing.processes import Answer, Processes
from testing.scenes import Scene, edge, scene_of
from testing.verdicts import Abilities, Finding, Malformed, find, fragments_of

NEAR_KEYS = 16  # depth keys that are at most so far apart may change places by rounding


@dataclass
class Trial:
    """How a case came out."""

    name: str
    status: str
    seconds: float = 0.0
    reason: str = ""
    verdict: str = ""
    command: str = ""
    samples: int = 1
    finding: dict | None = None
    pictures: dict[str, str] = field(default_factory=dict)  # PNG as base64, by kind
    error: str = ""  # what the driver said on standard error
    outcome: str = ""  # the status after the baseline was asked

    def record(self) -> dict:
        return {key: value for key, value in asdict(self).items() if value not in ("", None, {})}


def trial_of(record: dict) -> Trial:
    return Trial(**record)


@dataclass
class Bench:
    """What every trial of a run needs."""

    driver: Driver
    oracle: Oracle
    processes: Processes
    timeout: float

    # ---- asking the driver

    def words(self, case: Case) -> list[str]:
        mode = "native" if case.mode == "image" else case.mode
        return ["--mode", mode, "--attachment", case.attachment]

    def abilities(self, case: Case) -> Abilities:
        """What the driver states, in the units of the scene."""
        bits, reach = self.driver.info["subpixel_bits"], 128 * self.driver.info["viewport"]
        return Abilities(bits + 4, reach / 16) if case.mode == "magnify" else Abilities(bits, reach)

    def bits(self, case: Case) -> int:
        """To which the oracle rounds corners first."""
        return min(8, self.driver.info["subpixel_bits"]) if case.mode == "grid" else 8

    def command(self, case: Case, words: list[str]) -> str:
        """Repeats the comparison, at the top of the checkout."""
        path = case.path.removeprefix(TOP + "/")
        exact = f"examples/driver/out/exact --bits {self.bits(case)}"
        if "--image" in words:
            return f"{self.driver.command} {' '.join(words)} < {path} > driver.pam"
        return f"diff <({exact} < {path}) <({self.driver.command} {' '.join(words)} < {path})"

    def why_skipped(self, case: Case, scene: Scene) -> str:
        """Why a case needn't be tried, by what the driver told of itself; empty if it is."""
        if case.mode == "emulate" and scene.samples == 1:
            return "with one sample this is native"
        counts = self.driver.info["sample_counts"].get(case.attachment, [])
        samples = 1 if case.mode in ("magnify", "emulate") else scene.samples
        return "" if samples in counts else (
            f"the driver has no pattern of {samples} sample{'s' * (samples > 1)} for attachment {case.attachment}")

    # ---- a trial

    def run(self, case: Case) -> Trial:
        return self.run_scene(case, *scene_of_file(case.path))

    def try_scene(self, scene: Scene, mode: str, attachment: str) -> Trial:
        """A trial of a scene that has no file."""
        return self.run_scene(Case("random", mode, attachment), scene, scene.text().encode())

    def run_scene(self, case: Case, scene: Scene, data: bytes) -> Trial:
        if why := self.why_skipped(case, scene):
            return Trial(case.name, "Skip", reason=why)
        words = self.words(case) + (["--image", "--maxval", "65535"] if case.mode == "image" else [])
        answer = self.driver.call(self.processes, words, data, self.timeout)
        trial = Trial(case.name, "", round(answer.seconds, 3), command=self.command(case, words),
                      samples=scene.samples, error=answer.error)
        if end := bad_end(answer, self.timeout):
            trial.status, trial.reason = end
            return trial
        try:
            if case.mode == "image":
                self.compare_images(trial, case, scene, data, answer.out)
            else:
                self.compare_fragments(trial, case, scene, data, answer.out)
        except Malformed as why:
            trial.status, trial.reason = "Malformed", str(why)
        return trial

    def compare_fragments(self, trial: Trial, case: Case, scene: Scene, data: bytes, out: bytes) -> None:
        bits = self.bits(case)
        exact = self.oracle.fragments(data, bits)
        if out == exact:
            trial.status = "Pass"
            return
        driver, wanted = fragments_of(out.decode(errors="replace"), scene), fragments_of(exact.decode(), scene)
        finding = find(scene.rounded(bits), wanted, driver, self.abilities(case))
        if finding is None:  # the lines stand in another order
            trial.status = "Pass"
            return
        if finding.verdict == "precision" and case.mode in ("native", "emulate"):
            if out == self.oracle.fragments(data, min(8, self.driver.info["subpixel_bits"])):
                finding.reason += ". It draws just what corners rounded to these bits, halves to even, give"
        self.tell(trial, finding)
        if scene.width * scene.height <= 1 << 16:
            rounded = scene.rounded(bits).text().encode()
            expected = image_of(self.oracle.image(rounded))
            actual = image_of(self.fold(rounded, out))
            known = {key[:2] for key in wanted.keys() | driver.keys() if wanted.get(key) != driver.get(key)}
            trial.pictures = pictures(expected, actual, finding.worst["pixel"], known)

    def compare_images(self, trial: Trial, case: Case, scene: Scene, data: bytes, out: bytes) -> None:
        expected, actual = image_of(self.oracle.image(data)), image_of(out)
        if (actual.width, actual.height, actual.maxval) != (scene.width, scene.height, 65535):
            raise Malformed("the image has another size or MAXVAL than is asked for")
        if expected == actual:
            trial.status = "Pass"
            return
        finding = self.find_coverage(case, scene, data)
        if finding:
            pixel = finding.worst["pixel"]
        else:
            finding, pixel = self.find_order(scene, data, expected, actual)
        self.tell(trial, finding)
        trial.pictures = pictures(expected, actual, pixel, set())

    def find_coverage(self, case: Case, scene: Scene, data: bytes) -> Finding | None:
        """What the fragments of a case have whose image differs, or None if the driver gives the exact ones or none."""
        answer = self.driver.call(self.processes, self.words(case), data, self.timeout)
        if answer.status != 0:
            return None
        driver = fragments_of(answer.out.decode(errors="replace"), scene)
        exact = fragments_of(self.oracle.fragments(data).decode(), scene)
        return find(scene, exact, driver, self.abilities(case))

    def find_order(self, scene: Scene, data: bytes, expected: Image, actual: Image) -> tuple[Finding, tuple[int, int]]:
        """Why an image differs whose fragments are right: it is that of another rule, or keys lie close together."""
        pixels = differing(expected, actual)
        worst = max(pixels, key=lambda pixel: pixels[pixel])
        count = f"{len(pixels)} of {scene.width * scene.height} pixels differ, by {pixels[worst]} of 65535 at most"
        rules = {"order-of-equals": "of equal depths the earlier primitive is on top",
                 "depth-at-centre": "depth is taken at the pixel's centre for all of its samples"}
        for fault, rule in rules.items():
            if image_of(self.oracle.image(data, "--fault", fault)) == actual:
                return Finding("image", f"the fragments are right, and {rule}: {count}"), worst
        fragments = fragments_of(self.oracle.fragments(data).decode(), scene)
        if all(has_near_keys(scene, fragments, pixel) for pixel in pixels):
            return Finding("image", "the fragments are right, and depths that are equal or nearly so are put in "
                           f"another order: {count}"), worst
        return Finding("image", f"the fragments are right, and the order or the colours aren't: {count}"), worst

    def fold(self, scene: bytes, fragments: bytes) -> bytes:
        """The image of fragments that the driver gave."""
        with tempfile.NamedTemporaryFile() as file:
            file.write(fragments)
            file.flush()
            return self.oracle.ask_image(scene, "--fragments", file.name)

    def tell(self, trial: Trial, finding: Finding) -> None:
        trial.status, trial.verdict, trial.reason = finding.status, finding.verdict, finding.reason
        trial.finding = {key: value for key, value in asdict(finding).items()
                         if key not in ("verdict", "reason") and value not in ([], {}, None)}


@lru_cache(MOST_KEPT)
def scene_of_file(path: str) -> tuple[Scene, bytes]:
    data = read_bytes(path)
    return scene_of(data.decode(errors="replace"), path), data


def bad_end(answer: Answer, timeout: float) -> tuple[str, str] | None:
    """The status and the reason where the driver gave nothing to compare."""
    if answer.status is None:
        return "Timeout", f"no end within {timeout:g} s"
    if answer.status == NOT_SUPPORTED:
        return "Skip", answer.last_line
    if answer.status < 0:
        return "Crash", f"ended by {signal.Signals(-answer.status).name}"
    if answer.status != 0:
        return "Crash", f"status {answer.status}: {answer.last_line}"
    return None


def pictures(expected: Image, actual: Image, pixel: tuple[int, int], known: set[tuple[int, int]]) -> dict[str, str]:
    window = window_about(expected, pixel)
    kinds = {"expected": picture(expected, window), "actual": picture(actual, window),
             "difference": difference_picture(expected, actual, window, known)}
    return {kind: base64.b64encode(data).decode() for kind, data in kinds.items()}


def depth_key(scene: Scene, primitive: int, s: tuple[int, int]) -> int:
    triangle = scene.triangles[primitive]
    a, b, c = triangle.corners
    weights = edge(b, c, s), edge(c, a, s), edge(a, b, s)
    total = sum(weight * depth for weight, depth in zip(weights, triangle.depths))
    return total // triangle.area if triangle.area > 0 else -total // -triangle.area


def has_near_keys(scene: Scene, fragments: dict, pixel: tuple[int, int]) -> bool:
    """Whether two primitives of a pixel have keys in some sample that are equal or nearly so."""
    x, y = pixel
    for k in range(scene.samples):
        s = scene.place(x, y, k)
        keys = sorted(depth_key(scene, n, s) for (column, row, n), masks in fragments.items()
                      if (column, row) == pixel and masks[0] >> k & 1)
        if any(b - a <= NEAR_KEYS for a, b in zip(keys, keys[1:])):
            return True
    return False
