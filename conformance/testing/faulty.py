#!/usr/bin/env python3
"""A driver that is exact but in every tenth scene, where it does what its first word says.

    faulty.py crash|hang|nonsense|outside [WORDS of exact..]

It is there to test the runner. Which scenes it spoils hangs on their bytes alone. A hang starts a
process of its own, which has to end too; it lasts as long as the variable FAULTY_SECONDS says.
"""

from __future__ import annotations

import os
import signal
import subprocess
import sys
import time
import zlib

EXACT = os.path.join(os.path.dirname(os.path.abspath(__file__)), "../../examples/driver/out/exact")


def main() -> None:
    fault, *words = sys.argv[1:]
    data = b"" if "--info" in words else sys.stdin.buffer.read()
    done = subprocess.run([EXACT, *words], input=data, stdout=subprocess.PIPE)
    if "--info" not in words and zlib.crc32(data) % 10 == 0:
        if fault == "crash":
            os.kill(os.getpid(), signal.SIGSEGV)
        elif fault == "hang":
            seconds = os.environ.get("FAULTY_SECONDS", "1000")
            subprocess.Popen(["sleep", seconds])
            time.sleep(int(seconds))
        elif fault == "nonsense":
            print("out of cheese error")
            sys.exit(0)
        elif fault == "outside":
            print("0 0 99999 1")
            sys.exit(0)
    sys.stdout.buffer.write(done.stdout)
    sys.exit(done.returncode)


if __name__ == "__main__":
    main()
