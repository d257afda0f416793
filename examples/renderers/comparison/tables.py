"""The results as tables: what differs, what it took, and both as CSV, Markdown and a few lines of text."""

import csv
import io
from dataclasses import dataclass
from typing import Iterable, Sequence

from comparison.causes import CAUSES
from comparison.trials import ABUF, CRASHED, DRAWN, MALFORMED, SKIPPED, TOO_LONG

COLUMNS = ("scene", "order", "renderer", "version", "outcome", "why", "pixels", "differing", "greatest", "mean", "cause", "threads", "seconds",
           "drawing_seconds", "processor_seconds", "peak_kib", "rounds")
SHORT = {"rounding": "the last unit", "blending": "8 bits between layers", "ties": "ties", "outline": "outlines", "equals": "equal depth",
         "depth": "nearly equal depth", "cut": "layers cut", "unsorted": "order of the file", "order": "another order", "background": "background",
         "curve": "transfer curve", "unknown": "unknown"}
assert set(SHORT) == set(CAUSES)


def scenes_there(results: dict) -> list[dict]:
    return [scene for scene in results["scenes"] if not scene["missing"]]


def peers_there(results: dict) -> list[str]:
    """The renderers that aren't missing."""
    return [key for key, told in results["renderers"].items() if not told["missing"]]


def name_of(results: dict, key: str) -> str:
    return "abuf" if key == ABUF else results["renderers"][key]["name"].partition(",")[0]


# ---- what differs


@dataclass
class Verdict:
    """A scene by one renderer, over all orders of its faces."""

    outcome: str
    why: str = ""
    orders: int = 1
    same: int = 0  # orders in which the image is abuf's
    differing: int = 0  # pixels, in the worst order
    greatest: int = 0
    pixels: int = 0
    cause: str = ""  # or the two of most pixels
    worst: str = ""  # order
    varies: bool = False

    @property
    def is_same(self) -> bool:
        return self.outcome == DRAWN and self.same == self.orders

    def text(self) -> str:
        """In a cell of a table."""
        if self.outcome != DRAWN:
            return {SKIPPED: "skipped", CRASHED: "crashed", TOO_LONG: "too long", MALFORMED: "no image"}[self.outcome]
        if self.is_same:
            return "0"
        return f"{self.differing} (by {self.greatest}): {self.cause}"


BUSY = "The machine had other work at the time, so the times in the tables are processor times, of all threads together."
GRAVITY = (CRASHED, TOO_LONG, MALFORMED, SKIPPED, DRAWN)


def verdict_of(scene: dict, key: str) -> Verdict:
    tries = {order: told["results"][key] for order, told in scene["orders"].items()}
    outcome = min((one["outcome"] for one in tries.values()), key=GRAVITY.index)
    if outcome != DRAWN:
        return Verdict(outcome, next(one["why"] for one in tries.values() if one["outcome"] == outcome), len(tries))
    worst = max(tries, key=lambda order: (tries[order]["greatest"], tries[order]["differing"]))
    told = tries[worst]
    return Verdict(DRAWN, "", len(tries), sum(1 for one in tries.values() if not one["differing"]), told["differing"], told["greatest"],
                   told["pixels"], ", ".join(SHORT[cause] for cause in list(told["causes"])[:2]), worst, any(one["varies"] for one in tries.values()))


# ---- what it took


def times_of(scene: dict, key: str) -> dict[str, dict]:
    """The figures by threads, of the first order, which all rounds measured."""
    first = next(iter(scene["orders"].values()))
    return first["results"][key].get("times", {})


def seconds_text(seconds: float) -> str:
    if seconds < 0.0995:
        return f"{1000 * seconds:.0f} ms" if seconds >= 0.00995 else f"{1000 * seconds:.1f} ms"
    return f"{seconds:.2f} s" if seconds < 9.95 else f"{seconds:.0f} s"


def is_busy(results: dict) -> bool:
    """Whether the machine had other work: more than one process for each processor, while the comparison runs one at a time."""
    return max(results["load"], results["load_at_end"]) > 1.2 * results["processors"]


def time_text(figures: dict, by_processor: bool = False) -> str:
    """The time of a run, that of the drawing alone in brackets, and the memory; or the processor time and the memory."""
    drawing = f" ({seconds_text(figures['drawing'])})" if "drawing" in figures and not by_processor else ""
    return f"{seconds_text(figures['processor' if by_processor else 'seconds'])}{drawing}, {figures['peak'] / 1024:.0f} MiB"


def time_cell(scene: dict, key: str, threads: int, by_processor: bool = False) -> str:
    figures = times_of(scene, key).get(str(threads))
    if figures:
        return time_text(figures, by_processor)
    return {DRAWN: "", SKIPPED: "skipped", CRASHED: "crashed", TOO_LONG: "too long", MALFORMED: "no image"}[verdict_of(scene, key).outcome]


# ---- as text


def markdown_table(head: Sequence[str], rows: Iterable[Sequence[str]]) -> str:
    lines = ["| " + " | ".join(head) + " |", "|---|" + "---|" * (len(head) - 1)]
    return "\n".join([*lines, *("| " + " | ".join(row) + " |" for row in rows)]) + "\n"


def differences_table(results: dict) -> str:
    peers = peers_there(results)
    rows = []
    for scene in scenes_there(results):
        count = len(scene["orders"])
        rows.append([f"`{scene['name']}`" + (f", in {count} orders" if count > 1 else ""), *(verdict_of(scene, key).text() for key in peers)])
    return markdown_table(["Scene", *(name_of(results, key) for key in peers)], rows)


def times_table(results: dict, names: Sequence[str] | None = None) -> str:
    keys = [ABUF, *peers_there(results)]
    rows = [[f"`{scene['name']}`", str(threads), *(time_cell(scene, key, threads, is_busy(results)) for key in keys)]
            for scene in scenes_there(results) if names is None or scene["name"] in names for threads in results["threads"]]
    return markdown_table(["Scene", "Threads", *(name_of(results, key) for key in keys)], rows)


def versions_of(results: dict) -> str:
    """The renderers with their versions, in one sentence."""
    told = (results["renderers"][key] for key in peers_there(results))
    return "; ".join(f"{one['name'].partition(',')[0]} {one['version']}" + (f" on {one['device']}" if one["device"] else "") for one in told)


def how_of(results: dict) -> str:
    """When, where and how the figures were got."""
    rounds = f"the best of {results['rounds']} runs" if results["rounds"] > 1 else "one run each"
    load = f"load {results['load']:.1f} at the start and {results['load_at_end']:.1f} at the end"
    # Results may be put together from the files of several comparisons, with different limits.
    how = "in several comparisons" if results.get("several") else f"in turn; limit {results['limit']:g} s"
    told = f"{results['date']}, {results['machine']}, {results['system']}; {load}; {rounds}, {how}. {versions_of(results)}."
    return told + f" {BUSY}" * is_busy(results)


def markdown_of(results: dict) -> str:
    return f"{how_of(results)}\n\n{differences_table(results)}\n{times_table(results)}"


def csv_of(results: dict) -> str:
    out = io.StringIO()
    writer = csv.DictWriter(out, COLUMNS, lineterminator="\n")
    writer.writeheader()
    for scene in scenes_there(results):
        for order, told in scene["orders"].items():
            for key, one in told["results"].items():
                row = {"scene": scene["name"], "order": order, "renderer": key, "outcome": one["outcome"], "why": one["why"],
                       "version": results["renderers"].get(key, {}).get("version", ""), "cause": next(iter(one.get("causes", {})), "")}
                row.update({name: one[name] for name in ("pixels", "differing", "greatest", "mean") if name in one})
                for threads, figures in one.get("times", {}).items() or [("", {})]:
                    writer.writerow({**row, "threads": threads, "seconds": figures.get("seconds", ""), "rounds": figures.get("rounds", ""),
                                     "drawing_seconds": figures.get("drawing", ""), "processor_seconds": figures.get("processor", ""),
                                     "peak_kib": figures.get("peak", "")})
    return out.getvalue()


def summary_of(results: dict) -> str:
    """A line for each scene and renderer that isn't missing."""
    lines = []
    for scene in results["scenes"]:
        if scene["missing"]:
            lines.append(f"{scene['name']}: skipped: {scene['missing']}")
            continue
        for key in peers_there(results):
            verdict = verdict_of(scene, key)
            count = f"; the same in {verdict.same} of {verdict.orders} orders" if verdict.orders > 1 and not verdict.is_same and verdict.outcome == DRAWN else ""
            text = "abuf's image" if verdict.is_same else verdict.text() + (f": {verdict.why}" if verdict.why else "") + count
            lines.append(f"{scene['name']} by {key}: {text}")
    return "\n".join(lines)


def faults_of(results: dict) -> list[str]:
    """Where abuf doesn't keep its own promise: the same image in every run, whatever the order of the faces."""
    faults = []
    for scene in scenes_there(results):
        for order, told in scene["orders"].items():
            if not told["is_as_first"]:
                faults.append(f"{scene['name']}: abuf's image in the order {order} isn't that of the first order")
            if told["results"][ABUF].get("varies"):
                faults.append(f"{scene['name']}: abuf's image in the order {order} isn't the same in each run")
    return faults
