#!/usr/bin/env python3
"""Measures the tables of README.md here again, puts them there, and draws the pictures of the growth.

    figures.py [PART..] [--abuf PATH] [--beside OTHER]

    figures.py --beside ../other            all of them, the scenes beside another program
    figures.py growth                       the growth alone, with its pictures

The parts are those below. Each stands between two comments of README.md, and is replaced once its command has ended well; what
stands outside of them stays. Halt all other work of the machine first.

    scenes      bench.py --table --rounds 9, and --beside where another program is given
    at-once     bench.py --table --at-once --threads 4 --only full,deep,mesh,soup,text --rounds 7
    shares      bench.py --table --shares --rounds 1 --threads 1, of which the second table is kept
    stored      bench.py --table --stored --rounds 5
    growth      bench.py --table --growth --rounds 3, and the pictures of docs/pictures
    reading     bench.py --table --reading
    sequences   sequences.py --table --rounds 3

The status is 0, 1 where a command failed, whose part stays as it was, and 2 where README.md lacks a part.
"""

import os
import re
import subprocess
import sys

import growth
from abuflib import program, report
from abuflib.report import Fault

BESIDE = "--beside OTHER"  # as README.md shows it, wherever the other program is
PARTS = {
    "scenes": "bench.py --table --rounds 9",
    "at-once": "bench.py --table --at-once --threads 4 --only full,deep,mesh,soup,text --rounds 7",
    "shares": "bench.py --table --shares --rounds 1 --threads 1",
    "stored": "bench.py --table --stored --rounds 5",
    "growth": "bench.py --table --growth --rounds 3",
    "reading": "bench.py --table --reading",
    "sequences": "sequences.py --table --rounds 3",
}


def kept(part: str, command: str, printed: str) -> str:
    """What README.md has of the output of a command: how it was measured, and the last table."""
    measured, *blocks = printed.strip().split("\n\n")
    tables = [block for block in blocks if block.startswith("| ")]
    if not tables or not measured.startswith("`"):
        raise Fault(f"{command} printed no table")
    measured = re.sub(r"^`[^`]*`", f"`bench/{command}`", measured)
    if part == "shares":
        measured = re.sub(r"best of \d+$", "shares of the time on one thread, in percent", measured)
    return f"{measured}\n\n{tables[-1]}\n"


def with_part(document: str, part: str, text: str) -> str:
    """The document with a part made anew."""
    pattern = rf"(?s)(<!-- figures: {part} -->\n).*?(<!-- end of {part} -->\n)"
    if len(re.findall(pattern, document)) != 1:
        raise Fault(f"README.md doesn't have one part between <!-- figures: {part} --> and <!-- end of {part} -->")
    return re.sub(pattern, lambda found: f"{found.group(1)}\n{text}\n{found.group(2)}", document)


def measure(part: str, abuf: str, other: str | None) -> str | None:
    """The text of a part, or None where its command failed, which is told."""
    shown = f"{PARTS[part]} {BESIDE}" if part == "scenes" and other else PARTS[part]
    script, *words = shown.replace(BESIDE, "").split()
    words += ["--beside", other] if BESIDE in shown and other else []
    command = [sys.executable, os.path.join(growth.HERE, script), *words, "--abuf", abuf]
    print(f"{part}: {shown}", flush=True)
    done = subprocess.run(command, stdout=subprocess.PIPE, text=True)
    print(done.stdout, flush=True)
    if done.returncode != 0:
        print(f"WRONG {part}: {shown} ended in status {done.returncode}", flush=True)
        return None
    return kept(part, shown, done.stdout)


def main() -> int:
    ask = report.words(__doc__)
    ask.add_argument("parts", metavar="PART", nargs="*", help="these parts alone")
    program.add_option(ask)
    ask.add_argument("--beside", metavar="OTHER", help="another program, which runs in turn with the first on the scenes")
    given = ask.parse_args()
    for part in given.parts:
        if part not in PARTS:
            ask.error(f"no part {part}; there are {', '.join(PARTS)}")
    abuf, other = program.path_of(given.abuf), program.path_of(given.beside) if given.beside else None
    wanted = given.parts or list(PARTS)
    for part in wanted:
        with_part(growth.read(growth.README), part, "")  # a part that is missing is told before anything is measured
    failed = False
    for part in wanted:
        text = measure(part, abuf, other)
        failed |= text is None
        if text is None:
            continue
        document = with_part(growth.read(growth.README), part, text)
        with open(growth.README, "w", encoding="utf-8") as file:
            file.write(document)
        if part == "growth":
            growth.write(growth.growth_of(document, "README.md"), growth.PICTURES)
    return report.WRONG if failed else report.WELL


if __name__ == "__main__":
    report.end(main)
