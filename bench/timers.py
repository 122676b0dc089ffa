#!/usr/bin/env python3
"""Counts the instructions of the steps of a timing wheel, by a built timer_cost, and of a plain binary heap. See README.md."""
import argparse
import os
import subprocess
import tempfile

from calls import TIMES, instructions

LIVE = (1_000, 65_535)
# What timer_cost calls, and how the table names it.
CALLS = (
    ("none", "`fire` that answers none"),
    ("cancel", "`add` and `cancel`"),
    ("fire", "`fire` of one and `add`"),
    ("hold", "the same as time goes on"),
)
HEAP = os.path.join(os.path.dirname(os.path.abspath(__file__)), "heap.c")


def of_call(program, call, live):
    return (instructions(program, call, live, TIMES) - instructions(program, call, live, 0)) / TIMES


def of_add(program, live):
    return (instructions(program, "none", live, 0) - instructions(program, "none", 0, 0)) / live


def main():
    parser = argparse.ArgumentParser(description=__doc__)
    parser.add_argument("program", help="a built timer_cost")
    wheel = parser.parse_args().program
    with tempfile.TemporaryDirectory() as folder:
        heap = os.path.join(folder, "heap")
        subprocess.run([os.environ.get("CC", "cc"), "-O2", "-o", heap, HEAP], check=True)
        programs = [(program, live) for live in LIVE for program in (wheel, heap)]
        heads = "".join(f" wheel, {live:,} timers | heap |" for live in LIVE)
        print(f"| call |{heads}\n|---|" + "---|" * len(programs))
        for call, name in CALLS:
            print(f"| {name} |" + "".join(f" {of_call(program, call, live):.0f} |" for program, live in programs), flush=True)
        print("| `add`, from none on |" + "".join(f" {of_add(program, live):.0f} |" for program, live in programs))


if __name__ == "__main__":
    main()
