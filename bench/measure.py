#!/usr/bin/env python3
"""Measures one command: `measure.py RUNS INPUT COMMAND...` prints its wall time in seconds and its peak memory in MiB.

The time is the least of RUNS runs with INPUT on standard input and the output thrown away. The memory is the largest resident set
of one more run, by GNU time where it is there: a command that Python starts counts Python's own memory as its own. Without GNU
time the memory is therefore never below that of Python, some 10 MiB.
"""

import os
import resource
import subprocess
import sys
import tempfile
import time

GNU_TIME = "/usr/bin/time"


def run(command, path):
    with open(path, "rb") as given:
        start = time.perf_counter()
        code = subprocess.run(command, stdin=given, stdout=subprocess.DEVNULL, check=False).returncode
        taken = time.perf_counter() - start
    if code != 0:
        sys.exit(f"measure: {' '.join(command)} ended with {code}")
    return taken


def peak_kibibytes(command, path):
    if not os.access(GNU_TIME, os.X_OK):
        run(command, path)
        return resource.getrusage(resource.RUSAGE_CHILDREN).ru_maxrss
    with tempfile.NamedTemporaryFile("r") as told:
        run([GNU_TIME, "-f", "%M", "-o", told.name] + command, path)
        return int(told.read())


def main():
    runs, path, command = int(sys.argv[1]), sys.argv[2], sys.argv[3:]
    seconds = min(run(command, path) for _ in range(runs))
    print(f"{seconds:.4f} {peak_kibibytes(command, path) / 1024:.1f}")


main()
