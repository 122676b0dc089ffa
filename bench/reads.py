#!/usr/bin/env python3
"""Tells what a read of the shared clock costs, from the command `replay` alone. See README.md."""

import argparse
import os
import subprocess
import sys
import tempfile
import time

READS = 16384
STAMPS = 16384
TICKS = 15
KINDS = ["abs", "mono", "uptime", "fast", "diff", "back"]
READERS = (1, 2, 4)


class Run:
    """What one run took to its first byte of output, which comes when all its threads have ended."""

    def __init__(self, elapsed, work):
        self.elapsed = elapsed
        self.work = work


def work_of(pid):
    """The processor time of a process so far, of all its threads, in seconds."""
    # The clock of a process by its number, as clock_getcpuclockid(3) has it on Linux.
    return time.clock_gettime((~pid << 3) | 2)


def run(program, words, stamps):
    with open(stamps, "rb") as source:
        start = time.perf_counter()
        with subprocess.Popen([program, "replay", *words], stdin=source, stdout=subprocess.PIPE) as process:
            process.stdout.read(1)
            taken = Run(time.perf_counter() - start, work_of(process.pid))
            while process.stdout.read(1 << 20):
                pass
    if process.returncode != 0:
        sys.exit(f"reads.py: replay {' '.join(words)} ended with status {process.returncode}")
    return taken


def quiet(values):
    """The value that a tenth of the runs are at or below: what disturbs a run only ever makes it longer."""
    return sorted(values)[len(values) // 10]


def difference(program, stamps, words, less, runs):
    """How much longer `words` take than `less`, in time and in work, in ns. The runs of both alternate."""
    more, base = [], []
    for _ in range(runs):
        more.append(run(program, words, stamps))
        base.append(run(program, less, stamps))
    return tuple(1e9 * (quiet([getattr(r, what) for r in more]) - quiet([getattr(r, what) for r in base]))
                 for what in ("elapsed", "work"))


def options(ticks, readers, reads, *flags):
    return ["--ticks", str(ticks), "--readers", str(readers), "--reads", str(reads), *flags]


def attempts(program, stamps, ticks, readers, runs, *flags):
    """The ns of an attempt: as a reader waits for it, and of work."""
    elapsed, work = difference(program, stamps, options(ticks, readers, READS, *flags),
                               options(ticks, readers, 0, *flags), runs)
    return elapsed / READS, work / READS / readers


def windup(program, stamps, runs):
    """The ns of work of a windup, with what it takes to plan it."""
    _, work = difference(program, stamps, options(TICKS, 1, 0), options(0, 1, 0), runs)
    return work / (STAMPS * TICKS)


def outcomes(program, stamps, words, runs):
    """How many attempts of each kind were made in all runs, and how many of them came to Again."""
    made, again = dict.fromkeys(KINDS, 0), dict.fromkeys(KINDS, 0)
    for _ in range(runs):
        with open(stamps, "rb") as source:
            report = subprocess.run([program, "replay", *words], stdin=source, capture_output=True, check=True)
        for line in report.stdout.splitlines():
            piece = line.split()
            name = piece[0].decode()
            if name in ("read", "again"):
                kind = piece[3].decode()
                made[kind] += 1
                again[kind] += name == "again"
            elif name in ("old", "ahead"):
                made["back"] += 1
    return made, again


def make(program, path, count):
    with open(path, "wb") as out:
        subprocess.run([program, "make", "7", str(count)], stdout=out, check=True)


def print_idle(program, stamps, runs):
    print("| readers | ns an attempt, five kinds | ns a conversion |\n|---|---|---|")
    for readers in READERS:
        five, _ = attempts(program, stamps, 0, readers, runs)
        six, _ = attempts(program, stamps, 0, readers, runs, "--back")
        print(f"| {readers} | {five:.0f} | {6 * six - 5 * five:.0f} |", flush=True)


def print_busy(program, stamps, runs):
    print("\n| readers | ns of work an attempt | " + " | ".join(f"{k} again" for k in KINDS) + " |")
    print("|---" * (len(KINDS) + 2) + "|")
    for readers in READERS:
        _, work = attempts(program, stamps, TICKS, readers, runs, "--back")
        made, again = outcomes(program, stamps, options(TICKS, readers, READS, "--back"), min(runs, 9))
        shares = [f"{100 * again[kind] / max(made[kind], 1):.2f} %" for kind in KINDS]
        print(f"| {readers} | {work:.0f} | " + " | ".join(shares) + " |", flush=True)
    print(f"\na windup: {windup(program, stamps, runs):.0f} ns of work")


def main():
    parser = argparse.ArgumentParser(description=__doc__)
    parser.add_argument("program", help="the built program")
    parser.add_argument("--runs", type=int, default=101, help="runs of each row with an idle writer (101)")
    asked = parser.parse_args()
    with tempfile.TemporaryDirectory() as folder:
        few, many = os.path.join(folder, "few"), os.path.join(folder, "many")
        make(asked.program, few, 2)
        make(asked.program, many, STAMPS)
        print_idle(asked.program, few, asked.runs)
        print_busy(asked.program, many, max(asked.runs // 2, 1))


if __name__ == "__main__":
    main()
