#!/usr/bin/env python3
"""Counts the instructions of a read and of a windup of the shared clock, by a built read_cost. See README.md."""
import argparse
import os
import re
import subprocess

TIMES = 20_000
# What read_cost calls, and how the table names it.
CALLS = (
    ("abs", "`read(Abs)`"),
    ("mono", "`read(Mono)`"),
    ("uptime", "`read(Uptime)`"),
    ("utc", "`read(Utc)`"),
    ("fast", "`read(Fast)`"),
    ("diff", "`diff`"),
    ("back0", "`convert`, by the newest tick"),
    ("back1", "`convert`, one tick back"),
    ("back8", "`convert`, eight ticks back"),
    ("advance", "`Pen::advance` and `Pen::reserve`"),
    ("wind", "the same and `Pen::wind`"),
)


def instructions(program, *words):
    """How many instructions a run with these words takes by callgrind."""
    ran = subprocess.run(
        ["valgrind", "--tool=callgrind", f"--callgrind-out-file={os.devnull}", program, *map(str, words)],
        stdin=subprocess.DEVNULL,
        stderr=subprocess.PIPE,
        check=True,
    )
    return int(re.search(rb"Collected : (\d+)", ran.stderr).group(1))


def main():
    parser = argparse.ArgumentParser(description=__doc__)
    parser.add_argument("program", help="a built read_cost")
    program = parser.parse_args().program
    print("| call | instructions |\n|---|---|")
    for call, name in CALLS:
        many = instructions(program, call, TIMES)
        none = instructions(program, call, 0)
        print(f"| {name} | {(many - none) / TIMES:.0f} |", flush=True)


if __name__ == "__main__":
    main()
