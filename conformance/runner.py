#!/usr/bin/env python3
"""Tests a driver's coverage with the scenes of the suite, in the manner of deqp-runner.

    runner.py run --output DIR --vulkan lvp                 Mesa's lavapipe
    runner.py run --output DIR --vulkan swiftshader         SwiftShader, of Debian's chromium
    runner.py run --output DIR --egl                        the OpenGL driver that EGL finds
    runner.py run --output DIR --driver "COMMAND"           a driver of your own
    runner.py random --output DIR --vulkan lvp --kind far   random scenes, shrunk where they differ
    runner.py summary|junit|html DIR/results.json

The fragments that a driver gives are compared, by sample, with the exact ones. Each difference has a
verdict: `wrong` and `seam` are faults (Fail); `clipped`, `precision` and `ties` are allowed (Warn).
docs/COMPARING.md says what they rest on. A case is a scene in a mode, FOLDER/NAME@MODE, or with an
attachment FOLDER/NAME@MODE.rgba8; each is drawn in a process of its own.

DIR gets results.csv, failures.csv (to be added to a baseline as it stands), results.json,
driver.json, junit.xml, caselist.txt, journal.jsonl (for --resume) and the page index.html.

The status is 0 where all is as the baseline says, 1 where something differs from it (also a case
that passes unexpectedly), 2 where the run couldn't be done, and 3 where nothing was tested. Without
a baseline, a Fail, a Crash, a Timeout and a Malformed differ, and a Warn doesn't.
"""

from __future__ import annotations

import argparse
import json
import os
import signal
import sys
import time
from collections import Counter

sys.path.insert(0, os.path.dirname(os.path.abspath(__file__)))

from testing import cases, drivers, page, randoms, reports, runs  # noqa: E402
from testing.drivers import Driver  # noqa: E402
from testing.faults import Unusable  # noqa: E402
from testing.processes import Processes  # noqa: E402
from testing.trials import Bench  # noqa: E402

DEFAULT_MODES = ["native", "native.rgba8", "native.bgra8", "grid", "magnify", "emulate"]


def driver_of(given: argparse.Namespace) -> Driver:
    if given.driver is not None:
        driver = drivers.command_driver(given.driver)
    elif given.vulkan is not None:
        driver = drivers.vulkan_driver(given.vulkan)
    else:
        driver = drivers.egl_driver()
    for text in given.env:
        name, equals, value = text.partition("=")
        if not name or not equals:
            raise Unusable(f"--env: {text} isn't NAME=VALUE")
        driver.variables[name] = value
    return driver


def modes_of(given: argparse.Namespace, driver: Driver) -> list[str]:
    """The modes that are asked for, or all; grid only where it isn't native."""
    if given.modes:
        return given.modes.split(",")
    return [mode for mode in DEFAULT_MODES if mode != "grid" or driver.info["subpixel_bits"] < 8]


def expectations_of(given: argparse.Namespace) -> runs.Expectations:
    known = set(cases.scenes())
    baseline = cases.baseline_of(given.baseline, known) if given.baseline else None
    lists = [cases.patterns_of(cases.lines_of(path), path) if path else [] for path in (given.skips, given.flakes)]
    return runs.Expectations(baseline, *lists)


def make_folder(path: str) -> None:
    try:
        os.makedirs(path, exist_ok=True)
    except OSError as why:
        raise Unusable(f"{path}: {why.strerror}") from None


def write(path: str, text: str) -> None:
    try:
        with open(path, "w", encoding="utf-8") as file:
            file.write(text)
    except OSError as why:
        raise Unusable(f"{path}: {why.strerror}") from None


def results_of(driver: Driver, trials: list, expectations: runs.Expectations, seconds: float, started: str) -> dict:
    return {
        "driver": driver.info, "started": started, "seconds": round(seconds, 1),
        "counts": runs.counts_of(trials), "has_baseline": expectations.baseline is not None,
        "bad": [t.name for t in trials if not expectations.is_good(t.outcome)],
        "trials": [trial.record() for trial in trials],
    }


def run(given: argparse.Namespace) -> int:
    processes = Processes()
    expectations = expectations_of(given)
    driver = driver_of(given)
    driver.identify(processes, given.timeout)
    chosen = cases.Choice(modes_of(given, driver), given.caselist, given.include, given.exclude, given.fraction,
                          given.fraction_start).cases()
    make_folder(given.output)
    print(reports.title_of(driver.info), flush=True)
    write(os.path.join(given.output, "caselist.txt"), "".join(case.name + "\n" for case in chosen))
    bench = Bench(driver, drivers.Oracle(processes, drivers.MOST_KEPT), processes, given.timeout)
    journal = runs.Journal(given.output, driver.info, given.resume)
    work = runs.Run(bench, chosen, expectations, journal, given.max_fails)
    ended_by = []
    for number in (signal.SIGINT, signal.SIGTERM, signal.SIGHUP):
        signal.signal(number, lambda number, _: (ended_by.append(number), work.end()))
    began, started = time.monotonic(), time.strftime("%Y-%m-%d %H:%M UTC", time.gmtime())
    trials = work.run(given.jobs)
    results = results_of(driver, trials, expectations, time.monotonic() - began, started)
    runs.write_results(given.output, results, trials, expectations)
    write(os.path.join(given.output, "junit.xml"), reports.junit(results))
    write(os.path.join(given.output, "index.html"), page.html_of(results))
    print(reports.summary(results).split("\n", 1)[1], end="")
    if ended_by:
        raise Unusable(f"ended by {signal.Signals(ended_by[0]).name}; --resume goes on from here")
    status = runs.status_of(trials, expectations)
    if status == 3:
        print("nothing was tested")
    return status


def run_random(given: argparse.Namespace) -> int:
    """Random scenes. The first that differs in each verdict is shrunk and kept in the output folder."""
    processes = Processes()
    driver = driver_of(given)
    driver.identify(processes, given.timeout)
    mode, attachment = cases.mode_of(given.mode)
    counts = [1] if mode in ("magnify", "emulate") else driver.info["sample_counts"].get(attachment, [])
    if not counts:
        raise Unusable(f"the driver has no pattern for attachment {attachment}")
    make_folder(given.output)
    print(reports.title_of(driver.info))
    bench = Bench(driver, drivers.Oracle(processes, 1), processes, given.timeout)
    bits = min(8, driver.info["subpixel_bits"] if given.bits is None else given.bits)
    found: Counter = Counter()
    for seed in range(given.seed, given.seed + given.scenes):
        scene = randoms.scene_of_seed(given.kind, seed, bits, counts)
        trial = bench.try_scene(scene, mode, attachment)
        if trial.status in ("Pass", "Skip"):
            found[trial.status] += 1
            continue
        kind = trial.verdict or trial.status
        found[kind] += 1
        print(f"seed {seed}: {kind}: {trial.reason}", flush=True)
        if found[kind] == 1:
            least = randoms.shrunk(scene, lambda part: (
                (again := bench.try_scene(part, mode, attachment)).verdict or again.status) == kind)
            path = os.path.join(given.output, f"{given.kind}-{seed}-{kind}.tri")
            write(path, least.text())
            print(f"  {len(least.triangles)} of {len(scene.triangles)} triangles still differ: {path}", flush=True)
    told = ", ".join(f"{kind}: {count}" for kind, count in found.items())
    print(f"{given.kind}, seeds {given.seed} to {given.seed + given.scenes - 1}, {randoms.TRIANGLES} triangles each, "
          f"{bits} subpixel bits: {told}")
    if not set(found) - {"Skip"}:
        return 3
    return 1 if set(found) - {"Pass", "Skip", "clipped", "precision", "ties"} else 0


def report(given: argparse.Namespace) -> int:
    write_as = {"junit": reports.junit, "html": page.html_of, "summary": reports.summary}[given.command]
    text = write_as(reports.results_of(given.results))
    if given.output:
        write(given.output, text)
    else:
        print(text, end="")
    return 0


def count(text: str) -> int:
    """A whole number from 1 on, as an option's value."""
    if not text.isdigit() or int(text) < 1:
        raise argparse.ArgumentTypeError(f"{text} isn't a whole number from 1 on")
    return int(text)


def seconds(text: str) -> float:
    try:
        value = float(text)
    except ValueError:
        value = 0
    if not 0 < value < 1e6:
        raise argparse.ArgumentTypeError(f"{text} isn't a number of seconds above 0")
    return value


def add_driver(parser: argparse.ArgumentParser) -> None:
    group = parser.add_mutually_exclusive_group(required=True)
    group.add_argument("--driver", metavar="COMMAND", help="a program as examples/driver/README.md describes it")
    group.add_argument("--vulkan", metavar="ICD", nargs="?", const="",
                       help="the Vulkan driver of an ICD file, by its path or a part of its name; the loader's first "
                            "without one")
    group.add_argument("--egl", action="store_true", help="the OpenGL driver that EGL finds")
    parser.add_argument("--env", metavar="NAME=VALUE", action="append", default=[], help="a variable for the driver")
    parser.add_argument("--timeout", metavar="S", type=seconds, default=60, help="seconds that a case may take (60)")
    parser.add_argument("--jobs", metavar="N", type=count, default=os.cpu_count(),
                        help="cases that run at once (one for each processor)")


def parser_of() -> argparse.ArgumentParser:
    parser = argparse.ArgumentParser(prog="runner.py", description=__doc__,
                                     formatter_class=argparse.RawDescriptionHelpFormatter)
    commands = parser.add_subparsers(dest="command", required=True, metavar="COMMAND")
    run_parser = commands.add_parser("run", help="runs cases on a driver")
    run_parser.add_argument("--output", metavar="DIR", required=True)
    add_driver(run_parser)
    run_parser.add_argument("--modes", metavar="LIST", help="of native, grid, magnify, emulate and image, each with "
                            ".rgba8, .bgra8 or nothing; " + ",".join(DEFAULT_MODES) + " if not given")
    run_parser.add_argument("--include", metavar="RE", action="append", help="only cases in whose name this is found")
    run_parser.add_argument("--exclude", metavar="RE", action="append", help="no cases in whose name this is found")
    run_parser.add_argument("--caselist", metavar="FILE", help="the names of the cases, one a line")
    run_parser.add_argument("--baseline", metavar="FILE", help="what is expected of cases that don't pass")
    run_parser.add_argument("--skips", metavar="FILE", help="regular expressions of cases that aren't run")
    run_parser.add_argument("--flakes", metavar="FILE", help="regular expressions of cases that may fail")
    run_parser.add_argument("--fraction", metavar="N", type=count, default=1, help="only every Nth case")
    run_parser.add_argument("--fraction-start", metavar="K", type=count, default=1, help="from the Kth on")
    run_parser.add_argument("--max-fails", metavar="N", type=count, help="ends the run after so many")
    run_parser.add_argument("--resume", action="store_true", help="goes on with the run that DIR has")
    random_parser = commands.add_parser("random", help="runs random scenes on a driver, and shrinks what differs")
    random_parser.add_argument("--output", metavar="DIR", required=True)
    add_driver(random_parser)
    random_parser.add_argument("--kind", choices=list(randoms.KINDS), default="near",
                               help="how far corners lie from the image: " + ", ".join(
                                   f"{name} {kind.reach} pixels" for name, kind in randoms.KINDS.items()))
    random_parser.add_argument("--seed", metavar="N", type=count, default=1, help="of the first scene")
    random_parser.add_argument("--scenes", metavar="N", type=count, default=20, help="how many (20)")
    random_parser.add_argument("--mode", metavar="MODE", default="native")
    random_parser.add_argument("--bits", type=int, choices=range(9),
                               help="the subpixel bits that corners need at most; those of the driver if not given")
    for name, what in (("summary", "totals as text"), ("junit", "JUnit's XML"), ("html", "the page")):
        report_parser = commands.add_parser(name, help=what + " of a results.json")
        report_parser.add_argument("results", metavar="RESULTS.json")
        report_parser.add_argument("--output", metavar="FILE", help="else to standard output")
    return parser


def main() -> None:
    given = parser_of().parse_args()
    try:
        sys.exit({"run": run, "random": run_random}.get(given.command, report)(given))
    except (Unusable, OSError) as why:
        print(f"runner.py: {why}", file=sys.stderr)
        sys.exit(2)
    except KeyboardInterrupt:
        print("runner.py: ended by SIGINT", file=sys.stderr)
        sys.exit(2)


if __name__ == "__main__":
    main()
