"""Draws scenes by abuf and by other renderers, in turn, and compares what comes out. The results are plain values, to be kept as JSON."""

import datetime
import json
import os
import platform
import shlex
import sys
from dataclasses import dataclass, field
from typing import Callable, Sequence

import agree
import reference
import renderer
from abuflib import pam, program
from abuflib.report import Fault

from comparison import causes
from comparison.scenes import Order, Scene, short

ABUF = "abuf"
NODES = str(reference.MOST_NODES)
# How a trial comes out. Only what is drawn has figures.
DRAWN, SKIPPED, CRASHED, TOO_LONG, MALFORMED = "drawn", "skipped", "crashed", "too long", "malformed"
LONG = 10.0  # seconds; what takes longer is measured once
ENOUGH = 60.0  # seconds that --info, and abuf, may take whatever the limit is
# A script of a renderer finds renderer.py wherever it lies.
VARIABLES = {"PYTHONPATH": os.pathsep.join(filter(None, (renderer.HERE, os.environ.get("PYTHONPATH"))))}


@dataclass
class Peer:
    """Another renderer, by the command of its script."""

    key: str
    command: list[str]
    name: str = ""
    version: str = ""
    device: str = ""
    missing: str = ""  # why it isn't there

    def told(self) -> dict[str, str]:
        return {"name": self.name or self.key, "version": self.version, "device": self.device, "missing": self.missing}


def peer_of(command: Sequence[str], memory: float | None = None) -> Peer:
    """A renderer, asked what it is."""
    key = short(os.path.splitext(os.path.basename(command[-1]))[0].removeprefix("draw_"))
    peer = Peer(key, list(command))
    try:
        done = renderer.call([*command, "--info"], variables=VARIABLES, limit=ENOUGH, memory=memory)
        if done.status != 0:
            peer.missing = done.why()
            return peer
        told = json.loads(done.out.splitlines()[-1])
        peer.name, peer.version, peer.device = (str(told.get(name, "")) for name in ("name", "version", "device"))
    except (ValueError, IndexError, AttributeError):
        peer.missing = "--info doesn't tell a JSON object"
    return peer


def scripts() -> list[str]:
    """The scripts of this folder."""
    return sorted(os.path.join(renderer.HERE, name) for name in os.listdir(renderer.HERE)
                  if name.startswith("draw_") and name.endswith(".py"))


def command_of(text: str) -> list[str]:
    """The words of a renderer that is given; a Python script needs no rights to be run."""
    words = shlex.split(text)
    if not words:
        raise Fault("--renderer needs a command")
    words = [os.path.abspath(word) if os.path.exists(word) else word for word in words]
    return [sys.executable, *words] if words[0].endswith(".py") else words


# ---- one trial


@dataclass
class Times:
    """The best of several runs with the same number of threads."""

    rounds: int = 0
    best: renderer.Run | None = None

    def add(self, run: renderer.Run) -> None:
        self.rounds += 1
        if self.best is None or run.seconds < self.best.seconds:
            self.best = run

    def told(self) -> dict[str, float]:
        return {**self.best.figures(), "rounds": self.rounds} if self.best else {}


@dataclass
class Trial:
    """A scene in one order of its faces by one renderer."""

    outcome: str = DRAWN
    why: str = ""
    image: pam.Image | None = None
    varies: bool = False  # whether another run gave another image
    times: dict[int, Times] = field(default_factory=dict)  # by threads

    def end(self, outcome: str, why: str) -> "Trial":
        self.outcome, self.why = outcome, why
        return self


@dataclass
class Limits:
    seconds: float
    memory: float  # GiB


def taken(done: renderer.Run) -> renderer.Run:
    """The figures that a script tells of its renderer, or else those of the script."""
    for line in reversed(done.out.splitlines()):
        try:
            told = json.loads(line)
            return renderer.Run(float(told["seconds"]), float(told["processor"]), int(told["peak"]), drawing=told.get("drawing"))
        except (ValueError, KeyError, TypeError):
            continue
    return done


def run_peer(trial: Trial, peer: Peer, path: str, words: Sequence[str], image: str, limits: Limits) -> renderer.Run | None:
    """A run of a renderer, or how it ended otherwise."""
    if os.path.exists(image):
        os.remove(image)
    done = renderer.call([*peer.command, path, image, *words], b"", VARIABLES, limits.seconds, limits.memory)
    if done.status is None:
        trial.end(TOO_LONG, f"longer than {limits.seconds:g} s")
    elif done.status == renderer.CANT:
        trial.end(SKIPPED, done.last_line())
    elif done.status != 0:
        trial.end(CRASHED, done.why())
    else:
        keep(trial, image)
        return taken(done)
    return None


def run_abuf(trial: Trial, abuf: program.Program, path: str, words: Sequence[str], image: str, limits: Limits) -> renderer.Run | None:
    with open(path, "rb") as file:
        data = file.read()
    done = renderer.call([*abuf.command, "render", *words, "--nodes", NODES], data, {program.TUNABLES: abuf.tunables},
                         max(ENOUGH, limits.seconds), limits.memory, os.path.dirname(path))
    if done.status != 0:
        raise Fault(f"abuf doesn't draw {path}: {done.why()}")
    with open(image, "wb") as file:
        file.write(done.out)
    keep(trial, image)
    return done


def keep(trial: Trial, path: str) -> None:
    """Reads an image, and tells whether it is that of the runs before."""
    try:
        image = pam.load(path)
    except Fault as why:
        trial.end(MALFORMED, str(why).partition(": ")[2])
        return
    finally:
        os.remove(path)
    if image.maxval != 255:
        image = agree.scaled(image, 255)
    trial.varies = trial.varies or trial.image is not None and trial.image != image
    trial.image = trial.image or image


# ---- all trials of a scene


@dataclass
class Plan:
    abuf: program.Program
    peers: list[Peer]
    threads: list[int]
    rounds: int
    limits: Limits
    folder: str
    tell: Callable[[str], None]  # before each run
    keep: Callable[[dict], None] = lambda results: None  # after each scene, so that a long comparison may be ended


def draw_in_turn(plan: Plan, scene: Scene, order: Order, rounds: int, given_up: dict[str, str]) -> dict[str, Trial]:
    """Each renderer once, then each again, so that a busy moment falls on all of them alike."""
    peers = {peer.key: peer for peer in plan.peers}
    found = {key: Trial() for key in (ABUF, *peers)}
    for peer in plan.peers:
        if peer.missing:
            found[peer.key].end(SKIPPED, peer.missing)
        elif peer.key in given_up:
            found[peer.key].end(TOO_LONG, given_up[peer.key])
    for _ in range(rounds):
        for threads in plan.threads:
            words = [*scene.words, "--threads", str(threads)]
            for key, trial in found.items():
                times = trial.times.setdefault(threads, Times())
                if trial.outcome != DRAWN or times.best is not None and times.best.seconds > LONG:
                    continue
                image = os.path.join(plan.folder, f"{scene.name}.{order.name}.{key}.drawn.png")  # some add the ending
                plan.tell(f"{scene.name} {order.name} by {key}")
                run = run_abuf(trial, plan.abuf, order.path, words, image, plan.limits) if key == ABUF else \
                    run_peer(trial, peers[key], order.path, words, image, plan.limits)
                if run is not None and trial.outcome == DRAWN:
                    times.add(run)
    return found


def trial_results(trial: Trial, exact: pam.Image, layers: causes.Layers) -> dict:
    """What is told of a trial, beside abuf's image."""
    told: dict = {"outcome": trial.outcome, "why": trial.why}
    if trial.outcome != DRAWN or trial.image is None:
        return told
    try:
        found = agree.compare(exact, trial.image)
    except Fault as why:
        return {**told, "outcome": MALFORMED, "why": str(why)}
    findings = causes.causes_of(found, layers)
    return {**told, "pixels": len(found.pixels), "differing": found.differing(), "greatest": found.greatest, "mean": found.mean,
            "by_one": sum(1 for difference in found.pixels if difference == 1), "causes": dict(findings.counts.most_common()),
            "looked_at": findings.looked_at, "explained": findings.explained, "varies": trial.varies,
            "times": {str(threads): times.told() for threads, times in trial.times.items() if times.best}}


def save_pictures(plan: Plan, scene: Scene, order: Order, trials: dict[str, Trial]) -> dict[str, dict[str, str]]:
    """Each image as a PNG, and where it differs from abuf's."""
    exact, names = trials[ABUF].image, {}
    for key, trial in trials.items():
        if trial.image is None or exact is None or trial.image[:2] != exact[:2]:
            continue
        names[key] = {"image": f"{scene.name}.{order.name}.{key}.png"}
        write_png(os.path.join(plan.folder, names[key]["image"]), trial.image)
        found = agree.compare(exact, trial.image)
        if found.differing():
            names[key]["difference"] = f"{scene.name}.{order.name}.{key}.difference.png"
            # The greatest difference is yellow, so that small ones are told apart.
            enlarged = [difference * exact.maxval // found.greatest for difference in found.pixels]
            write_png(os.path.join(plan.folder, names[key]["difference"]), agree.picture_of(exact, enlarged))
    return names


def write_png(path: str, image: pam.Image) -> None:
    with open(path, "wb") as file:
        file.write(pam.to_png(image, is_small=False))


def kept_words(words: Sequence[str]) -> list[str]:
    """The options that all renderers are given."""
    options = reference.matches_of("render", list(words)) or {}
    return [f"--{name}={options[name]}" for name in renderer.KEPT if name in options and name != "threads"]


def scene_results(plan: Plan, scene: Scene) -> dict:
    """All trials of a scene. The first of its orders is measured in all rounds, the others are drawn once."""
    scene.words = kept_words(scene.words)
    told: dict = {"name": scene.name, "says": scene.says, "words": scene.words, "missing": scene.missing, "orders": {}}
    if scene.missing:
        return told
    job = reference.job_of(["render", *scene.words])
    first: pam.Image | None = None
    given_up: dict[str, str] = {}
    for number, order in enumerate(scene.orders):
        trials = draw_in_turn(plan, scene, order, 1 if number else plan.rounds, given_up)
        given_up.update({key: f"not tried: {trial.why} in another order" for key, trial in trials.items()
                         if trial.outcome == TOO_LONG and key not in given_up})
        exact = trials[ABUF].image
        if exact is None:
            raise Fault(f"abuf's image of {scene.name} can't be read")
        first = first or exact
        layers = causes.Layers(job, agree.primitives_of_file(order.path, job))
        results = {key: trial_results(trial, exact, layers) for key, trial in trials.items()}
        told["triangles"] = len(agree.triangles_of_file(order.path))
        told["orders"][order.name] = {"results": results, "is_as_first": exact == first,
                                      "pictures": save_pictures(plan, scene, order, trials)}
    return told


def machine() -> str:
    """The processor, and how many there are."""
    name = platform.machine()
    try:
        with open("/proc/cpuinfo", encoding="utf-8") as file:
            name = next((line.partition(":")[2].strip() for line in file if line.startswith("model name")), name)
    except OSError:
        pass
    return f"{name}, {os.cpu_count()} processors"


def system() -> str:
    try:
        return platform.freedesktop_os_release()["PRETTY_NAME"]
    except (OSError, KeyError):
        return platform.system()


def results_of(plan: Plan, scenes: Sequence[Scene]) -> dict:
    """All that is found, and how."""
    os.makedirs(plan.folder, exist_ok=True)
    told: dict = {"date": datetime.date.today().isoformat(), "machine": machine(), "processors": os.cpu_count(), "system": system(), "load": os.getloadavg()[0],
            "load_at_end": os.getloadavg()[0], "threads": plan.threads, "rounds": plan.rounds, "limit": plan.limits.seconds, "memory": plan.limits.memory,
            "renderers": {peer.key: peer.told() for peer in plan.peers}, "scenes": []}
    for scene in scenes:
        told["scenes"].append(scene_results(plan, scene))
        told["load_at_end"] = os.getloadavg()[0]
        plan.keep(told)
    return told
