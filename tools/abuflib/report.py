"""What a script prints, and the status in which it ends.

    0   all is well
    1   something was checked or compared, and isn't as it must be
    2   the script couldn't do its work: bad words, a missing file, package or program
"""

import argparse
import os
import sys
import time
from typing import Callable, NoReturn

WELL, WRONG, UNABLE = 0, 1, 2


class Fault(Exception):
    """Why a script can't do its work; the text is one line that says what to fix or install."""


def name() -> str:
    """The script, as its messages name it."""
    return os.path.basename(sys.argv[0])


def words(text: str | None, **more: object) -> argparse.ArgumentParser:
    """A reader of the command line, whose --help is the text of the script."""
    return argparse.ArgumentParser(description=text, formatter_class=argparse.RawDescriptionHelpFormatter, **more)  # type: ignore[arg-type]


def end(main: Callable[[], int | None]) -> NoReturn:
    """Runs a script and ends with its status; a fault is told in one line."""
    try:
        status = main() or WELL
        sys.stdout.flush()
    except Fault as why:
        print(f"{name()}: {why}", file=sys.stderr)
        status = UNABLE
    except BrokenPipeError:
        # Whoever read the output has gone. Nothing more may be written, not even at the end.
        os.dup2(os.open(os.devnull, os.O_WRONLY), sys.stdout.fileno())
        status = WRONG
    except OSError as why:
        print(f"{name()}: {why.filename + ': ' if why.filename else ''}{why.strerror}", file=sys.stderr)
        status = UNABLE
    except KeyboardInterrupt:
        status = 130
    sys.exit(status)


class Report:
    """Counts what passed and what failed, tells each failure, and how far a long run is."""

    def __init__(self, kind: str = "checks", is_quiet: bool = True) -> None:
        self.kind = kind  # what is counted
        self.is_quiet = is_quiet  # about what passed
        self.passed = 0
        self.failed = 0
        self.began = time.monotonic()
        self.told = 0.0
        self.is_shown = False

    def add(self, title: str, fault: str | None, more: str = "") -> bool:
        """Counts a check; its fault is told, or that it passed, if that is wanted."""
        if fault is None:
            self.passed += 1
            if not self.is_quiet:
                self.line(f"{title}{': ' + more if more else ''}")
        else:
            self.failed += 1
            self.line(f"WRONG {title}: {fault}")
        return fault is None

    def line(self, text: str) -> None:
        self.clear()
        print(text, flush=True)

    def progress(self, done: int, of: int | None = None) -> None:
        """Tells on a terminal how far a run is, at most twice a second."""
        now = time.monotonic()
        if not sys.stderr.isatty() or now - self.told < 0.5:
            return
        self.told, self.is_shown = now, True
        total = f" of {of}" if of else ""
        print(f"\r{done}{total} {self.kind}, {now - self.began:.0f} s", end="\x1b[K", file=sys.stderr, flush=True)

    def clear(self) -> None:
        if self.is_shown:
            print("\r\x1b[K", end="", file=sys.stderr, flush=True)
            self.is_shown = False

    def total(self) -> str:
        return f"{self.passed + self.failed} {self.kind}, {self.failed} failed"

    def status(self) -> int:
        return WRONG if self.failed else WELL

    def conclude(self) -> int:
        """Prints the totals, and gives the status of the script."""
        self.clear()
        print(f"{os.path.splitext(name())[0]}: {self.total()}", flush=True)
        return self.status()
