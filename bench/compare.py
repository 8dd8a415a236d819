#!/usr/bin/env python3
"""Measures two commands, run by turns: `compare.py RUNS INPUT COMMAND... -- INPUT COMMAND...`.

For each it prints a line `WALL CPU MIB`: the least wall time and the least processor time (user and system) of RUNS runs, in seconds, and
the largest resident set in MiB. INPUT is the standard input; the output is thrown away. The runs alternate, so that other work on the
machine meets both alike.
"""

import os
import subprocess
import sys
import time


def run(path, command):
    with open(path, "rb") as given:
        start = time.perf_counter()
        child = subprocess.Popen(command, stdin=given, stdout=subprocess.DEVNULL)
        _, status, used = os.wait4(child.pid, 0)
        wall = time.perf_counter() - start
    if status != 0:
        sys.exit(f"compare: {' '.join(command)} failed")
    return wall, used.ru_utime + used.ru_stime, used.ru_maxrss / 1024


def main():
    runs, words = int(sys.argv[1]), sys.argv[2:]
    cut = words.index("--")
    commands = [words[:cut], words[cut + 1 :]]
    results = [[], []]
    for _ in range(runs):
        for command, result in zip(commands, results):
            result.append(run(command[0], command[1:]))
    for result in results:
        wall, cpu, mebibytes = (list(column) for column in zip(*result))
        print(f"{min(wall):.3f} {min(cpu):.3f} {max(mebibytes):.1f}")


main()
