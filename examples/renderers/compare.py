#!/usr/bin/env python3
"""Draws scenes by abuf and by all other renderers that are installed, compares them, and writes tables and a page.

    compare.py [--output FOLDER] [--only SCENE,..] [--renderer COMMAND].. [OPTIONS]

    examples/renderers/compare.py --output out/renderers
    examples/renderers/compare.py --only films,cube --renderers povray,cycles
    examples/renderers/compare.py --renderer ./draw_mine.py

The folder then has index.html, one page that needs no network, and results.json, results.csv and results.md. A renderer that isn't
there is skipped, one that crashes or takes too long is told as that, and README.md in this folder says how to add one.

--measure measures in turn: all renderers one after another, on 1 and on 4 threads, the best of 5 rounds. On a machine that has
nothing else to do, this makes the figures of the documents anew, with their pictures:

    examples/renderers/compare.py --measure --docs

--docs            Writes the tables and pictures of docs/COMPARING.md and README.md, and keeps their figures in measured.json.
--from FILE       Draws nothing, and writes the page and the tables of results that were kept, from the folder where they lie.

The status is 0, also where renderers differ from abuf, or 1 where abuf's image isn't the same in all orders of the faces, or from run
to run. It is 2 where something couldn't be done.
"""

import argparse
import json
import os
import signal
import sys

import renderer  # noqa: F401  (it finds the tools)
from abuflib import program, report
from abuflib.report import Fault

from comparison import documents, page, scenes, tables, trials

OUT = os.path.join("out", "renderers")


def numbers_of(text: str) -> list[int]:
    """Numbers of threads."""
    parts = [int(part) for part in text.split(",") if part.isdecimal()]
    if len(parts) != text.count(",") + 1 or not all(1 <= part <= 64 for part in parts):
        raise argparse.ArgumentTypeError("numbers from 1 to 64, with commas between them")
    return parts


def options() -> argparse.ArgumentParser:
    parser = report.words(__doc__)
    parser.add_argument("--output", default=OUT, metavar="FOLDER", help=f"where the page and the tables are written ({OUT})")
    parser.add_argument("--only", metavar="SCENE,..", help="these scenes alone")
    parser.add_argument("--renderers", metavar="NAME,..", help="these of the scripts here alone; an empty text for none")
    parser.add_argument("--renderer", action="append", default=[], metavar="COMMAND", help="another renderer, by the command of its script")
    parser.add_argument("--threads", type=numbers_of, metavar="N,..", help="numbers of threads, each measured by itself (1)")
    parser.add_argument("--rounds", type=int, metavar="N", help="runs of which the best counts (1)")
    parser.add_argument("--limit", type=float, default=60, metavar="SECONDS", help="that a run may take (60)")
    parser.add_argument("--memory", type=float, default=8, metavar="GIB", help="address space that a run may take (8)")
    parser.add_argument("--measure", action="store_true", help="5 rounds, on 1 and on 4 threads")
    parser.add_argument("--docs", action="store_true", help="write the tables and pictures of the documents")
    parser.add_argument("--from", dest="kept", metavar="FILE", help="a results.json to take in place of drawing")
    program.add_option(parser)
    return parser


def chosen_scenes(folder: str, only: str | None) -> list[scenes.Scene]:
    found = scenes.all_in(folder)
    names = only.split(",") if only else [scene.name for scene in found]
    if unknown := set(names) - {scene.name for scene in found}:
        raise Fault(f"no scene {', '.join(sorted(unknown))}; there are {', '.join(scene.name for scene in found)}")
    return [scene for scene in found if scene.name in names]


def chosen_peers(names: str | None, commands: list[str], memory: float) -> list[trials.Peer]:
    keys = {os.path.basename(path)[5:-3]: path for path in trials.scripts()}
    wanted = list(keys) if names is None else [name for name in names.split(",") if name]
    if unknown := set(wanted) - set(keys):
        raise Fault(f"no script of {', '.join(sorted(unknown))}; there are those of {', '.join(keys)}")
    words = [[sys.executable, keys[name]] for name in wanted] + [trials.command_of(text) for text in commands]
    peers = [trials.peer_of(command, memory) for command in words]
    if len({peer.key for peer in peers}) < len(peers):
        raise Fault("two renderers have the same name")
    return peers


def drawn(given: argparse.Namespace) -> dict:
    threads, rounds = given.threads or ([1, 4] if given.measure else [1]), given.rounds or (5 if given.measure else 1)
    abuf = program.find(given.abuf, program.launcher_tunables())
    wanted = chosen_scenes(os.path.join(given.output, "scenes"), given.only)
    peers = chosen_peers(given.renderers, given.renderer, given.memory)
    for peer in peers:
        print(f"{peer.key}: " + (f"skipped: {peer.missing}" if peer.missing else " ".join(filter(None, (peer.name, peer.version, peer.device)))), flush=True)
    told = report.Report("runs")

    def tell(_: str) -> None:
        told.passed += 1
        told.progress(told.passed)

    def keep(results: dict) -> None:
        write(given.output, "results.json", json.dumps(results, indent=1) + "\n")

    plan = trials.Plan(abuf, peers, threads, rounds, trials.Limits(given.limit, given.memory), given.output, tell, keep)
    results = trials.results_of(plan, wanted)
    told.clear()
    return results


def write(folder: str, name: str, text: str) -> None:
    with open(os.path.join(folder, name), "w", encoding="utf-8", newline="") as file:
        file.write(text)


def main() -> int:
    signal.signal(signal.SIGTERM, lambda *_: sys.exit(128 + signal.SIGTERM))  # so that the renderer that runs is ended too
    given = options().parse_args()
    given.output = os.path.abspath(given.output)
    if given.kept:
        with open(given.kept, encoding="utf-8") as file:
            results = json.load(file)
        given.output = os.path.dirname(os.path.abspath(given.kept))
    else:
        results = drawn(given)
    write(given.output, "results.csv", tables.csv_of(results))
    write(given.output, "results.md", tables.markdown_of(results))
    write(given.output, "index.html", page.html_of(results, given.output))
    print(tables.summary_of(results))
    print(os.path.join(os.path.relpath(given.output), "index.html"))
    if given.docs:
        for path in documents.update(results, given.output):
            print(f"written: {os.path.relpath(path)}")
    faults = tables.faults_of(results)
    for fault in faults:
        print(f"WRONG {fault}")
    return report.WRONG if faults else report.WELL


if __name__ == "__main__":
    report.end(main)
