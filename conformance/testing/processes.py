"""Programs with a time limit, each of which ends with all that it started."""

from __future__ import annotations

import os
import shutil
import signal
import subprocess
import threading
import time
from dataclasses import dataclass

# Where the runner is killed, the kernel kills what it started. A program that started while the runner was killed may have asked for
# that too late, so it then looks whether the runner, whose number is the next word, is still its parent.
GUARD = ([path, "--pdeathsig", "KILL", "sh", "-c", '[ "$PPID" = "$0" ] && exec "$@"']
         if (path := shutil.which("setpriv")) else [])
MOST_TEXT = 2000  # of what a program says on standard error


@dataclass
class Answer:
    status: int | None  # below 0 for a signal, None where time ran out
    out: bytes
    error: str
    seconds: float

    @property
    def last_line(self) -> str:
        """What a program says at its end, without its name; libraries may have said more before."""
        line = (self.error.strip().splitlines() or [""])[-1]
        return line.partition(": ")[2] or line


class Processes:
    """The programs that run now. Each leads a group of processes, which is ended as a whole."""

    def __init__(self) -> None:
        self.lock = threading.Lock()
        self.running: set[subprocess.Popen] = set()
        self.is_over = False

    def call(self, words: list[str], data: bytes, timeout: float | None, env: dict[str, str] | None = None) -> Answer:
        began = time.monotonic()
        with self.lock:
            if self.is_over:
                return Answer(None, b"", "the run was ended", 0)
            guard = [*GUARD, str(os.getpid())] if GUARD else []
            process = subprocess.Popen(guard + words, stdin=subprocess.PIPE, stdout=subprocess.PIPE,
                                       stderr=subprocess.PIPE, env=env, start_new_session=True)
            self.running.add(process)
        try:
            out, error = process.communicate(data, timeout)
            status: int | None = process.returncode
        except subprocess.TimeoutExpired:
            end(process)
            out, error = process.communicate()
            status = None
        finally:
            end(process)  # what it may have left running
            with self.lock:
                self.running.discard(process)
        return Answer(status, out, error.decode(errors="replace")[-MOST_TEXT:], time.monotonic() - began)

    def end_all(self) -> None:
        """Ends all programs, and starts none any more."""
        with self.lock:
            self.is_over = True
            for process in self.running:
                end(process)


def end(process: subprocess.Popen) -> None:
    try:
        os.killpg(process.pid, signal.SIGKILL)
    except (ProcessLookupError, PermissionError):
        pass
