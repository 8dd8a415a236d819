#!/usr/bin/env python3
"""Runs the gate, and prints the minutes of a processor that it took for each crate.

    bench/gate_minutes.py [rt ci's arguments]

runs `rt ci` with these arguments at the top of the repository, hands on what it prints, and at the end prints a table: for
each crate its own proof, the proof of its tests, and the proofs that its must-fail edits are tried by. Some kits keep on the
machine what a run passed, so that a later run has less to do: there give `--anew`. Every process of the prover is looked at twice
a second; what it did after the last look, the linker, and the programs and tests that ran are in the last row.
Needs Linux. Processors that are threads of one core take longer where both are busy, and so do these minutes. Where the run
proved the lowest crate, the last line has the whole as a multiple of that proof, by which runs on two machines compare.
"""

import collections
import os
import pathlib
import subprocess
import sys
import time

TICKS = os.sysconf("SC_CLK_TCK")
PHASES = ("Its proof", "Tests", "Edits")
# What the processes of this run have in their environment.
MARK = f"GATE_MINUTES={os.getpid()}"


def words_of(process: pathlib.Path) -> list[str]:
    return (process / "cmdline").read_text(errors="replace").split("\0")


def is_prover(process: pathlib.Path) -> bool:
    words = words_of(process)
    return os.path.basename(words[0]) == "rattle" and "--crate-name" in words


def fields_of(process: pathlib.Path) -> list[str]:
    """What the system tells of a process, from its state on."""
    return (process / "stat").read_text().rpartition(")")[2].split()


def crate_and_phase(process: pathlib.Path) -> tuple[str, str] | None:
    """The crate that a process of this run proves, and for which phase; None for another process. A prover that works on
    several processors makes copies of itself, whose time becomes its own when they end: so they are not looked at."""
    if not is_prover(process) or is_prover(pathlib.Path("/proc") / fields_of(process)[1]):
        return None
    words = words_of(process)
    if MARK not in (process / "environ").read_text(errors="replace").split("\0"):
        return None
    crate = words[words.index("--crate-name") + 1]
    if pathlib.Path(os.readlink(process / "cwd")).name.startswith("rt-edit-"):
        return crate, "Edits"
    return crate, "Tests" if "--test" in words else "Its proof"


def seconds_of(process: pathlib.Path) -> float:
    """The processor time of a process so far, and of those that it made and that have ended."""
    return sum(int(ticks) for ticks in fields_of(process)[11:15]) / TICKS


def look(seen: dict[tuple[str, str], tuple[tuple[str, str], float]]) -> None:
    """Notes the processor time of each process of the prover, by its number and when it started: numbers come again."""
    for process in pathlib.Path("/proc").glob("[0-9]*"):
        try:
            key = process.name, fields_of(process)[19]
            what = seen[key][0] if key in seen else crate_and_phase(process)
            if what:
                seen[key] = what, seconds_of(process)
        except OSError:
            pass  # it ended meanwhile


def crates_of(top: pathlib.Path) -> list[str]:
    lines = (top / "crates.txt").read_text().splitlines()
    return [line.partition(":")[0].split()[0] for line in lines if line.strip() and line[0] != "#"]


def row(name: str, *seconds: float) -> None:
    print(f"| {name} | " + " | ".join(f"{it / 60:.1f}" for it in seconds) + " |")


def main() -> int:
    top = pathlib.Path(__file__).resolve().parent.parent
    started, seen = time.monotonic(), {}
    name, _, value = MARK.partition("=")
    gate = subprocess.Popen(["rt", "ci", *sys.argv[1:]], cwd=top, env={**os.environ, name: value})
    try:
        while gate.poll() is None:
            look(seen)
            time.sleep(0.5)
    except KeyboardInterrupt:
        gate.wait()
    used = os.times()
    whole = used.children_user + used.children_system
    by_crate = collections.Counter()
    for what, seconds in seen.values():
        by_crate[what] += seconds
    print("\n| Crate | " + " | ".join(PHASES) + " | Together |\n|" + "---|" * (len(PHASES) + 2))
    for crate in crates_of(top):
        parts = [by_crate[crate, phase] for phase in PHASES]
        if sum(parts):
            row(f"`{crate}`", *parts, sum(parts))
    sums = [sum(s for (_, phase), s in by_crate.items() if phase == it) for it in PHASES]
    row("all crates", *sums, sum(sums))
    print(f"\nWith linking, programs and tests {whole / 60:.1f}, in {(time.monotonic() - started) / 60:.1f} minutes"
          f" of the clock on {os.cpu_count()} processors.")
    lowest = crates_of(top)[0]
    if by_crate[lowest, PHASES[0]]:
        print(f"That is {whole / by_crate[lowest, PHASES[0]]:.0f} times the proof of `{lowest}`.")
    return gate.returncode


if __name__ == "__main__":
    sys.exit(main())
