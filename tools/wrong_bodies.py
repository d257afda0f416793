#!/usr/bin/env python3
"""Writes docs/WRONG-BODIES.md: each edit of the crates' must-fail folders, and where the check refuses it.

    wrong_bodies.py LOG [LOG..]     the logs of `rt ci` or of `rt must-fail`, in which each edit was tried

    rt ci > /tmp/ci.log 2>&1; wrong_bodies.py /tmp/ci.log

An edit is told by its name, the line that it changes, and the contract that refuses it: the function, and the clause or the
goal of its proof that the edited body leaves open. An edit that no log has keeps its row if its code is the same, and is 'not
recorded' otherwise. Where the logs have none at all, nothing is written and the status is 2.
"""

import glob
import os
import re

from abuflib import report
from abuflib.program import TOP
from abuflib.report import Fault

PAGE = os.path.join(TOP, "docs", "WRONG-BODIES.md")
REFUSED = re.compile(r"rt: must-fail (\w+)/(\w+)\.edit: refused, as it must be(?:: (.*))?$")
HEAD = """# Wrong bodies

Each crate keeps edits in `must-fail/`. An edit changes a line or a few of the code so that a public function does something
else, and the check has to refuse it; `rt ci` tries each. An edit that is still proved would show a contract that is too weak.

The tables have each edit by its name, which says the wrong that it does, the code before and after it, and what refuses it: the
function whose proof fails first, and the clause or goal that is open there. A goal `returns` is all that a function ensures
together. Where the goal is what a call requires, the edited body could not even call the function.

Bodies that `rt plant` makes by itself stand in [PROOFS](PROOFS.md#wrong-bodies), with those that pass and why.

`tools/wrong_bodies.py` makes this page from the edits and the log of a run that tried them. Where it says 'not recorded', the
edit is newer than the last log that was kept.
"""


def text_of(path):
    with open(path, encoding="utf-8") as file:
        return file.read()


def edits_of(crate):
    """The names of a crate's edits, each with its changes: file, old and new."""
    for path in sorted(glob.glob(os.path.join(TOP, "crates", crate, "must-fail", "*.edit"))):
        changes, file, old = [], None, None
        for line in text_of(path).splitlines():
            kind, _, rest = line.partition(": ")
            if kind == "file":
                file = rest.strip()
            elif kind == "old":
                old = rest.strip()
            elif kind == "new":
                changes.append((file, old, rest.strip()))
        yield os.path.basename(path)[:-5], changes


def refusals_of(logs):
    """What refused each edit, by crate and name, as the logs have it."""
    found = {}
    for log in logs:
        with open(log, encoding="utf-8", errors="replace") as file:
            for line in file:
                match = REFUSED.match(line)
                if match:
                    found[match.group(1), match.group(2)] = match.group(3) or ""
    return found


def function_at(crate, file, line):
    """The name of the function to which the line of a source belongs, or which follows it: so for its attributes and comments."""
    lines = text_of(os.path.join(TOP, "crates", crate, file)).splitlines()
    above, below = lines[line - 1::-1], lines[line:line + 20]
    begins = lines[line - 1].lstrip().startswith(("#", "//"))
    for text in below + above if begins else above + below:
        match = re.match(r"\s*(?:pub(?:\([a-z]+\))? )?fn (\w+)", text)
        if match:
            return match.group(1)
    return file


def place_of(crate, refusal):
    """The function and the goal at which an edit is refused. None where the log doesn't tell."""
    if not refusal:
        return None
    goals = re.findall(r"`([\w+-]+)`", refusal)
    proof = re.match(r"\./proofs/([\w/+-]+)/\w+\.antt:\d+:\d+: error: (.*)", refusal)
    if proof:
        # The proof of a function with closures stands in a folder that names the closures too, and the function first or last.
        names = re.findall(r"\w+", re.sub(r"fn-\w+(-\w+)*", "", proof.group(1).split("/")[-1]))
        named = re.match(r"`([\w-]+)`", proof.group(2)) or re.search(r"not checked: ([\w-]+)", proof.group(2))
        function = next(name for name in names if not re.fullmatch(r"arg\d+", name))
        goal = named.group(1) if named else "returns"
        if named and named.end() == len(proof.group(2)):  # the log cuts long lines off
            goal = re.sub(r"(-clause)?-\w*$", "", goal)
        return f"`{function}`: `{goal}`"
    source = re.search(r"(src/[\w/]+\.rt):(\d+)", refusal)
    named = re.search(r"\(`([\w+-]+)`\)", refusal)
    goal = named.group(1) if named else goals[0] if goals else "the function"
    return f"`{function_at(crate, source.group(1), int(source.group(2))) if source else '?'}`: `{goal}`"


def code(text):
    """Code in a cell of a table."""
    fence = "``" if "`" in text else "`"
    return fence + text.replace("|", "\\|") + fence


def crates():
    with open(os.path.join(TOP, "crates.txt"), encoding="utf-8") as file:
        return [line.split(":")[0] for line in file if re.match(r"\w+:", line)]


def kept_places(page):
    """Of each edit on the page, by its crate and its row without the last cell: where it was refused."""
    found, crate = {}, ""
    for line in page.splitlines():
        if line.startswith("## "):
            crate = line[3:]
        elif line.startswith("| "):
            row, _, place = line.removesuffix(" |").rpartition(" | ")
            found[crate, row] = place
    return found


def main():
    parser = report.words(__doc__)
    parser.add_argument("logs", nargs="+", metavar="LOG")
    refusals = refusals_of(parser.parse_args().logs)
    if not refusals:
        raise Fault("the logs have no edit that was refused")
    kept = kept_places(text_of(PAGE)) if os.path.exists(PAGE) else {}
    page, count = [HEAD], 0
    for crate in crates():
        rows = []
        for name, changes in edits_of(crate):
            told = "<br>".join(f"{code(old)} → {code(new)}" for _, old, new in changes)
            row = f"| {name.replace('_', ' ')} | {told}"
            if (crate, name) in refusals:
                place = place_of(crate, refusals[crate, name]) or "not named by the log"
            else:
                place = kept.get((crate, row), "not recorded")
            rows.append(f"{row} | {place} |")
        if rows:
            count += len(rows)
            page.append(f"\n## {crate}\n\n{len(rows)} edits.\n\n| The wrong | Before → after | Refused at |\n|---|---|---|\n"
                        + "\n".join(rows) + "\n")
    with open(PAGE, "w", encoding="utf-8") as file:
        file.write("".join(page))
    print(f"{count} edits")


if __name__ == "__main__":
    report.end(main)
