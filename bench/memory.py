#!/usr/bin/env python3
"""Refuses a built radclock its memory and its threads, one call after the other. See README.md."""
import argparse
import os
import subprocess
import sys
import tempfile

STAMPS = 40
FAULT = b"fault memory\n"
NO_MEMORY = 5
MOST = 10_000  # no command asks so often

MEMORY = (
    ["stamps"],
    ["rtt"],
    ["estimate"],
    ["ticks"],
    ["ticks", "--ticks", "15"],
    ["replay"],
    ["replay", "--ticks", "15", "--readers", "16"],
    ["replay", "--back", "--crank"],
    ["make", "7", "3"],
    ["run", "7", "3", "--ideal"],
)
THREADS = (
    ["replay", "--readers", "0"],
    ["replay", "--readers", "1"],
    ["replay"],
    ["replay", "--readers", "16"],
    ["replay", "--readers", "16", "--back", "--crank"],
    ["run", "7", "3"],
)
# Lines that other runs print otherwise.
READERS = (b"read ", b"again ", b"old ", b"ahead ")


def build(folder):
    """The library that refuses."""
    library = os.path.join(folder, "refuse.so")
    source = os.path.join(os.path.dirname(os.path.abspath(__file__)), "refuse.c")
    compiler = os.environ.get("CC", "cc")
    subprocess.run([compiler, "-O2", "-Wall", "-shared", "-fPIC", "-o", library, source], check=True)
    return library


def run(program, words, text, library=None, **refused):
    """The status of a run, what it wrote, and how many calls were refused."""
    reads, writes = os.pipe()
    environment = {f"REFUSE_{name.upper()}": str(number) for name, number in refused.items()}
    if library:
        environment |= {"LD_PRELOAD": library, "REFUSE_TOLD": str(writes)}
    ran = subprocess.run(
        [program, *words], input=text, stdout=subprocess.PIPE, env=environment, pass_fds=[writes], timeout=60, check=False
    )
    os.close(writes)
    with os.fdopen(reads, "rb") as pipe:
        count = len(pipe.read())
    return ran.returncode, ran.stdout, count


def sweep(program, words, text, library, what, every):
    """The runs with the first, the second .. call refused, up to the last one that the command makes."""
    for number in range(1, MOST):
        refused = {what: number} | ({"all": 1} if every else {})
        status, told, count = run(program, words, text, library, **refused)
        if count == 0:
            return
        yield number, status, told


def settled(words, told):
    """What a replay prints that hangs on no thread, and how many lines."""
    lines = told.splitlines()
    crank = "--crank" in words
    kept = [line for line in lines if not line.startswith(READERS) and not (crank and line.startswith(b"tick "))]
    return kept, len(lines)


def is_done(words, due, status, told):
    """Whether a run is done, with the whole report."""
    return status == 0 and settled(words, told) == settled(words, due)


def refuse_memory(program, words, text, library, every):
    """A row of the table, and what was wrong."""
    _, due, _ = run(program, words, text)
    starts = sum(1 for _ in sweep(program, words, text, library, "thread", False))
    faults = silent = done = 0
    wrong = []
    for number, status, told in sweep(program, words, text, library, "memory", every):
        if status == NO_MEMORY and told == FAULT and done == 0:
            faults += 1
        elif status == NO_MEMORY and told == b"" and faults == 0:
            # Before the words are read there is nothing to write by.
            silent += 1
        elif faults > 0 and done < starts and is_done(words, due, status, told):
            # Memory for the start of a thread: its part ran in the thread that asked for it.
            done += 1
        else:
            wrong.append((number, status, told[:60]))
    tried = silent + faults + done + len(wrong)
    return [" ".join(words), "all from" if every else "one", *map(str, (tried, silent, faults, done))], wrong


def refuse_threads(program, words, text, library, every):
    """A row of the table, and what was wrong."""
    _, due, _ = run(program, words, text)
    tried = 0
    wrong = []
    for number, status, told in sweep(program, words, text, library, "thread", every):
        tried += 1
        if not is_done(words, due, status, told):
            wrong.append((number, status, told[:60]))
    return [" ".join(words), "all from" if every else "one", f"{tried}", f"{tried - len(wrong)}"], wrong


def print_all(head, commands, refuse):
    """Prints a table, and answers what was wrong."""
    rows = [head]
    wrong = []
    for words in commands:
        for every in (False, True):
            row, bad = refuse(words, every)
            rows.append(row)
            wrong += [(" ".join(words), every, *what) for what in bad]
    widths = [max(len(row[k]) for row in rows) for k in range(len(head))]
    for row in rows:
        print("  ".join(cell.ljust(width) for cell, width in zip(row, widths)).rstrip())
    return wrong


def main():
    parser = argparse.ArgumentParser(description=__doc__)
    parser.add_argument("program", help="the built program")
    program = os.path.abspath(parser.parse_args().program)
    with tempfile.TemporaryDirectory() as folder:
        library = build(folder)
        _, text, _ = run(program, ["make", "7", str(STAMPS)], b"")
        wrong = print_all(
            ["command", "refused", "tried", "nothing told", "fault told", "done"],
            MEMORY,
            lambda words, every: refuse_memory(program, words, text, library, every),
        )
        print()
        wrong += print_all(
            ["command", "refused", "tried", "done"],
            THREADS,
            lambda words, every: refuse_threads(program, words, text, library, every),
        )
    for what in wrong:
        print("wrong:", *what, file=sys.stderr)
    return 1 if wrong else 0


if __name__ == "__main__":
    sys.exit(main())
