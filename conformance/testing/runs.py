"""A run over many cases: in parallel, against a baseline, and resumed where it was ended."""

from __future__ import annotations

import csv
import json
import os
import re
import sys
import threading
import time
from collections import Counter
from concurrent.futures import ThreadPoolExecutor, wait
from dataclasses import dataclass, field

from testing.cases import Case, Expected
from testing.faults import Unusable, read_text
from testing.trials import Bench, Trial, trial_of

# As deqp-runner names them, and Changed: listed in the baseline with another status or verdict.
GOOD = ("Pass", "Skip", "ExpectedFail", "ExpectedWarn", "KnownFlake", "Flake")
RERUN = ("Fail", "Crash", "Malformed")  # to see whether they come out so again
LONGEST_WAIT = 0.5  # seconds


@dataclass
class Expectations:
    """What a run is compared with."""

    baseline: dict[str, Expected] | None = None  # None where no baseline is given
    skips: list[re.Pattern] = field(default_factory=list)
    flakes: list[re.Pattern] = field(default_factory=list)

    def is_skipped(self, name: str) -> bool:
        return any(pattern.fullmatch(name) for pattern in self.skips)

    def outcome(self, trial: Trial) -> str:
        """The status of a trial as the baseline has it."""
        expected = (self.baseline or {}).get(trial.name)
        if trial.status in ("Skip", "Missing"):
            return trial.status
        if expected is None:
            is_flake = trial.status != "Pass" and any(p.fullmatch(trial.name) for p in self.flakes)
            return "KnownFlake" if is_flake else trial.status
        if trial.status == "Pass":
            return "UnexpectedPass"
        if trial.status == expected.status and expected.verdict in ("", trial.verdict):
            return "ExpectedWarn" if trial.status == "Warn" else "ExpectedFail"
        return "Changed"

    def is_good(self, outcome: str) -> bool:
        """Whether an outcome is as expected. A Warn is allowed where no baseline says what was there before."""
        return outcome in GOOD or outcome == "Warn" and self.baseline is None


class Journal:
    """The trials of a run as they end, one a line, from which it can be resumed."""

    def __init__(self, folder: str, identity: dict, resume: bool) -> None:
        self.path = os.path.join(folder, "journal.jsonl")
        self.done: dict[str, Trial] = {}
        if resume and os.path.exists(self.path):
            self.read(identity)
        with open(self.path, "w", encoding="utf-8") as file:
            for record in [identity, *(trial.record() for trial in self.done.values())]:
                file.write(json.dumps(record) + "\n")
        self.file = open(self.path, "a", encoding="utf-8")

    def read(self, identity: dict) -> None:
        """What was done before. A last line that was cut off is left out."""
        lines = read_text(self.path).split("\n")[:-1]
        try:
            records = [json.loads(line) for line in lines]
        except ValueError:
            raise Unusable(f"{self.path}: isn't the journal of a run; run without --resume") from None
        if not records:
            return
        if records[0] != identity:
            raise Unusable(f"{self.path}: was written for another driver; run without --resume")
        try:
            self.done = {record["name"]: trial_of(record) for record in records[1:]}
        except (KeyError, TypeError):
            raise Unusable(f"{self.path}: isn't the journal of a run; run without --resume") from None

    def add(self, trial: Trial) -> None:
        self.file.write(json.dumps(trial.record()) + "\n")
        self.file.flush()


class Progress:
    """A line on a terminal: how many are done and failed, and how long it takes yet."""

    def __init__(self, total: int, done: int) -> None:
        self.total, self.done, self.first, self.failed = total, done, done, 0
        self.began = time.monotonic()
        self.is_shown = sys.stderr.isatty()

    def add(self, is_good: bool) -> None:
        self.done += 1
        self.failed += not is_good
        if self.is_shown:
            passed = time.monotonic() - self.began
            left = passed / (self.done - self.first) * (self.total - self.done)
            print(f"\r{self.done} of {self.total} done, {self.failed} not as expected, {left:.0f} s left \x1b[K",
                  end="", file=sys.stderr, flush=True)

    def clear(self) -> None:
        if self.is_shown:
            print("\r\x1b[K", end="", file=sys.stderr, flush=True)


class Run:
    def __init__(self, bench: Bench, cases: list[Case], expectations: Expectations, journal: Journal,
                 max_fails: int | None) -> None:
        self.bench, self.cases, self.expectations, self.journal = bench, cases, expectations, journal
        self.max_fails = max_fails
        self.lock = threading.Lock()
        self.stop = threading.Event()
        self.progress = Progress(len(cases), sum(case.name in journal.done for case in cases))
        self.fails = 0
        self.fault: Unusable | None = None

    def trial(self, case: Case) -> Trial:
        if self.expectations.is_skipped(case.name):
            return Trial(case.name, "Skip", reason="in the list of --skips")
        trial = self.bench.run(case)
        outcome = self.expectations.outcome(trial)
        if trial.status in RERUN and outcome in (*RERUN, "Changed"):
            again = self.bench.run(case)
            if again.status != trial.status or again.verdict != trial.verdict:
                trial.outcome = "Flake"
                trial.reason += f"; run again, it came out as {again.status}"
        return trial

    def one(self, case: Case) -> Trial:
        if case.name in self.journal.done:
            trial = self.journal.done[case.name]
        elif self.stop.is_set():
            return Trial(case.name, "Missing", reason="the run was ended before", outcome="Missing")
        else:
            try:
                trial = self.trial(case)
            except Unusable as why:
                self.fault = self.fault or why
                self.stop.set()
                return Trial(case.name, "Missing", reason=str(why), outcome="Missing")
            if self.bench.processes.is_over and trial.status != "Pass":  # its driver may have been ended
                return Trial(case.name, "Missing", reason="the run was ended meanwhile", outcome="Missing")
            self.note(trial)
        if trial.outcome != "Flake":
            trial.outcome = self.expectations.outcome(trial)
        return trial

    def note(self, trial: Trial) -> None:
        outcome = trial.outcome or self.expectations.outcome(trial)
        is_good = self.expectations.is_good(outcome)
        with self.lock:
            self.journal.add(trial)
            self.progress.add(is_good)
            self.fails += not is_good
            if not is_good:
                self.progress.clear()
                print(f"{outcome:15}{trial.name:40} {trial.verdict + ': ' if trial.verdict else ''}{trial.reason}",
                      flush=True)
            if self.max_fails and self.fails >= self.max_fails:
                self.stop.set()

    def run(self, jobs: int) -> list[Trial]:
        try:
            with ThreadPoolExecutor(jobs) as pool:
                futures = [pool.submit(self.one, case) for case in self.cases]
                # A signal that comes just before the main thread begins to wait is seen only when that ends.
                while wait(futures, LONGEST_WAIT).not_done:
                    pass
                trials = [future.result() for future in futures]
        finally:
            self.progress.clear()
        if self.fault:
            raise self.fault
        return trials

    def end(self) -> None:
        """Ends the run early; what is done stays in the journal."""
        self.stop.set()
        self.bench.processes.end_all()


# ---- results


def counts_of(trials: list[Trial]) -> dict[str, int]:
    return dict(Counter(trial.outcome for trial in trials))


def status_of(trials: list[Trial], expectations: Expectations) -> int:
    """0 as expected, 1 not so, 3 nothing was tested."""
    if not all(expectations.is_good(t.outcome) or t.outcome == "Missing" for t in trials):
        return 1
    return 3 if all(trial.status in ("Skip", "Missing") for trial in trials) else 0


def write_csv(path: str, rows: list[list]) -> None:
    with open(path, "w", encoding="utf-8", newline="") as file:
        csv.writer(file, lineterminator="\n").writerows(rows)


def write_results(folder: str, results: dict, trials: list[Trial], expectations: Expectations) -> None:
    """results.csv, failures.csv (lines to add to a baseline), results.json and driver.json."""
    write_csv(os.path.join(folder, "results.csv"),
              [[t.name, t.outcome, t.verdict, t.seconds] for t in trials])
    write_csv(os.path.join(folder, "failures.csv"),
              [[t.name, t.status, t.verdict] for t in trials
               if t.status not in ("Pass", "Skip", "Missing") and t.outcome not in GOOD])
    for name, data in (("results.json", results), ("driver.json", results["driver"])):
        with open(os.path.join(folder, name), "w", encoding="utf-8") as file:
            json.dump(data, file, indent=1)
            file.write("\n")
