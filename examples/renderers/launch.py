"""Runs a program and writes what it took; renderer.py starts it.

    python3 -I -S launch.py FIGURES MEMORY PROGRAM WORDS..

The kernel counts the memory of the process that starts a program as the program's, so this one is small. FIGURES is the file for
the seconds, the seconds of processor time, the most memory in KiB and the status. MEMORY is the most address space in bytes, or 0.
"""

import os
import resource
import sys
import time

figures, memory, *command = sys.argv[1:]
began = time.perf_counter()
child = os.fork()
if child == 0:
    try:
        if int(memory):
            resource.setrlimit(resource.RLIMIT_AS, (int(memory), int(memory)))
        os.execvp(command[0], command)
    except OSError as why:
        os.write(2, f"{command[0]}: {why.strerror}\n".encode())
    finally:
        os._exit(127)
_, status, usage = os.wait4(child, 0)
seconds = time.perf_counter() - began
with open(figures, "w") as file:
    file.write(f"{seconds} {usage.ru_utime + usage.ru_stime} {usage.ru_maxrss} {os.waitstatus_to_exitcode(status)}")
