"""A run's results as JUnit's XML and as a few lines of text."""

from __future__ import annotations

import json
from collections import Counter, defaultdict
from xml.sax.saxutils import escape, quoteattr

from testing.faults import Unusable, read_text
from testing.verdicts import VERDICTS

ORDER = ("Pass", "Warn", "Fail", "Crash", "Timeout", "Malformed", "ExpectedFail", "ExpectedWarn", "UnexpectedPass",
         "Changed", "KnownFlake", "Flake", "Skip", "Missing")


def results_of(path: str) -> dict:
    try:
        results = json.loads(read_text(path))
        results["trials"], results["driver"]["device"], results["counts"], results["bad"]
    except (ValueError, KeyError, TypeError):
        raise Unusable(f"{path}: isn't a results.json of this program") from None
    return results


def mode_of(name: str) -> str:
    return name.rpartition("@")[2]


def ordered(counts: dict[str, int]) -> list[str]:
    return sorted(counts, key=ORDER.index)


def title_of(driver: dict) -> str:
    return f"{driver['device']}, {driver['interface']}, {driver['version']}"


def counts_text(counts: dict[str, int]) -> str:
    return ", ".join(f"{kind}: {counts[kind]}" for kind in ordered(counts))


def verdict_counts(trials: list[dict]) -> Counter:
    return Counter(trial["verdict"] for trial in trials if trial.get("verdict"))


def summary(results: dict) -> str:
    """Totals by mode, and the verdicts."""
    by_mode: dict[str, Counter] = defaultdict(Counter)
    for trial in results["trials"]:
        by_mode[mode_of(trial["name"])][trial["outcome"]] += 1
    lines = [title_of(results["driver"]), f"{results['driver']['subpixel_bits']} subpixel bits, "
             f"viewport {results['driver']['viewport']}"]
    lines += [f"{mode:15} {counts_text(counts)}" for mode, counts in by_mode.items()]
    verdicts = verdict_counts(results["trials"])
    if verdicts:
        lines.append("verdicts        " + ", ".join(f"{v}: {verdicts[v]}" for v in VERDICTS if verdicts[v]))
    lines.append(f"all             {counts_text(results['counts'])}; {results['seconds']} s")
    return "".join(line + "\n" for line in lines)


def junit(results: dict) -> str:
    """One suite, with the scene's folder as the class of each test."""
    bad = set(results["bad"])
    skipped = sum(trial["status"] in ("Skip", "Missing") for trial in results["trials"])
    lines = ['<?xml version="1.0" encoding="utf-8"?>', "<testsuites>",
             f"<testsuite name={quoteattr('abuf on ' + title_of(results['driver']))} "
             f"tests=\"{len(results['trials'])}\" failures=\"{len(bad)}\" skipped=\"{skipped}\" "
             f"time=\"{results['seconds']}\">"]
    for trial in results["trials"]:
        folder, _, rest = trial["name"].partition("/")
        head = f"<testcase classname={quoteattr(folder)} name={quoteattr(rest)} time=\"{trial.get('seconds', 0)}\""
        message = quoteattr(": ".join(part for part in (trial["outcome"], trial.get("verdict"), trial.get("reason"))
                                      if part))
        if trial["name"] in bad:
            detail = "\n".join(part for part in (trial.get("command"), trial.get("error")) if part)
            lines.append(f"{head}><failure message={message}>{escape(printable(detail))}</failure></testcase>")
        elif trial["status"] in ("Skip", "Missing"):
            lines.append(f"{head}><skipped message={message}/></testcase>")
        elif trial["status"] == "Pass":
            lines.append(head + "/>")
        else:
            lines.append(f"{head}><system-out>{escape(printable(trial.get('reason', '')))}</system-out></testcase>")
    return printable("\n".join([*lines, "</testsuite>", "</testsuites>"])) + "\n"


def printable(text: str) -> str:
    """The text without characters that XML doesn't have."""
    return "".join(c for c in text if c >= " " or c in "\n\t")
