#!/usr/bin/env python3
"""Times the commands of a built radclock on inputs of three sizes, and counts its instructions. See README.md."""
import argparse
import os
import random
import re
import shutil
import statistics
import subprocess
import sys
import tempfile

MADE = 16384  # the most stamps of one `make`
MOST = 65536  # the most stamp lines of an input
SIZES = {
    "make": (1024, 4096, MADE),
    "stamps": (1024, MADE, MOST),
    "rtt": (1024, MADE, MOST),
    "estimate": (1024, MADE, MOST),
    "ticks": (1024, 4096, MADE),
}
INTERVAL = 16  # seconds from one made stamp to the next
FREQUENCY = 2_400_000_000

# What instructions are counted on: drawn stamps at 1 GHz, 16 s apart, and comments.
DRAWN = 8192
COMMENTS = 20_000
COMMENT = b"#" + b"x" * 78 + b"\n"
COUNTED = (
    ["stamps"],
    ["rtt"],
    ["estimate"],
    ["ticks", "--ticks", "0"],
    ["ticks", "--ticks", "4"],
)


def run(program, words, source, target=os.devnull):
    """Runs the program once: its user and system time in seconds, and its write calls."""
    pid = os.fork()
    if pid == 0:
        os.dup2(os.open(source, os.O_RDONLY), 0)
        os.dup2(os.open(target, os.O_WRONLY | os.O_CREAT | os.O_TRUNC, 0o600), 1)
        os.execv(program, [program, *words])
    # The counts of an ended process stand until it is waited for.
    os.waitid(os.P_PID, pid, os.WEXITED | os.WNOWAIT)
    writes = None
    try:
        with open(f"/proc/{pid}/io", encoding="ascii") as counts:
            for line in counts:
                name, value = line.split(": ")
                if name == "syscw":
                    writes = int(value)
    except OSError:
        pass
    _, status, usage = os.wait4(pid, 0)
    if status != 0:
        sys.exit(f"{' '.join(words)}: status {os.waitstatus_to_exitcode(status)}")
    return usage.ru_utime, usage.ru_stime, writes


def shifted(line, by):
    """A made stamp line, so many made stamps later by the nominal frequency."""
    ta, tb, te, tf = line.split()
    seconds = by * INTERVAL

    def later(time):
        whole, nanos = time.split(".")
        return f"{int(whole) + seconds}.{nanos}"

    counts = seconds * FREQUENCY
    return f"{int(ta) + counts} {later(tb)} {later(te)} {int(tf) + counts}"


def make_inputs(program, folder):
    """A stamp file of each size. Past the most stamps of one `make` it goes on with the same stamps, later."""
    files = {}
    for size in sorted({size for sizes in SIZES.values() for size in sizes}):
        path = os.path.join(folder, f"{size}.txt")
        run(program, ["make", "7", str(min(size, MADE))], os.devnull, path)
        with open(path, encoding="ascii") as file:
            lines = file.read().splitlines()[2:]
        with open(path, "a", encoding="ascii") as file:
            for i in range(len(lines), size):
                line = lines[i % len(lines)]
                file.write(shifted(line, i - i % len(lines)) + "\n")
        files[size] = path
    return files


def words_of(command, size):
    if command == "make":
        return ["make", "7", str(size)]
    if command == "ticks":
        return ["ticks", "--ticks", "15"]
    return [command]


def measure(program, command, size, source, runs, folder):
    """A row of the table, and the median time in seconds."""
    words = words_of(command, size)
    target = os.path.join(folder, "output")
    run(program, words, source, target)
    with open(target, "rb") as output:
        text = output.read()
    lines = text.count(b"\n")
    read = os.path.getsize(source)
    results = [run(program, words, source) for _ in range(runs)]
    user = statistics.median(u for u, _, _ in results)
    system = statistics.median(s for _, s, _ in results)
    times = sorted(u + s for u, s, _ in results)
    median = statistics.median(times)
    spread = times[-1] - times[0]
    writes = results[0][2]
    rate = max(median, 1e-9)
    row = [
        command,
        f"{size}",
        f"{user * 1000:.0f}",
        f"{system * 1000:.0f}",
        f"{median * 1000:.0f}",
        f"{spread * 1000:.0f}",
        f"{read / rate / 1e6:.1f}" if command != "make" else "-",
        f"{len(text) / rate / 1e6:.1f}",
        f"{size / rate:.0f}",
        "-" if writes is None else f"{writes / lines:.4f}",
    ]
    return row, median


def drawn_stamps():
    """A file of drawn stamps, the same at each run: round trips of 0.1 to 0.9 ms, a server that takes up to 0.06 ms."""
    draw = random.Random(3)
    lines = ["radclock-stamps 1", "freq 1000000000"]
    ta = 10**9
    for i in range(DRAWN):
        trip = draw.randint(100_000, 900_000)
        second = 1_700_000_000 + INTERVAL * i
        came = draw.randint(0, 500_000_000)
        left = came + draw.randint(0, 60_000)
        lines.append(f"{ta} {second}.{came:09} {second}.{left:09} {ta + trip}")
        ta += INTERVAL * 10**9
    return ("\n".join(lines) + "\n").encode()


def comments():
    return b"radclock-stamps 1\nfreq 1000000000\n" + COMMENT * COMMENTS


def instructions(program, words, source):
    """How many instructions a run takes by callgrind, from the start of the process to its end."""
    with open(source, "rb") as text:
        ran = subprocess.run(
            ["valgrind", "--tool=callgrind", f"--callgrind-out-file={os.devnull}", program, *words],
            stdin=text,
            stdout=subprocess.DEVNULL,
            stderr=subprocess.PIPE,
            check=True,
        )
    return int(re.search(rb"Collected : (\d+)", ran.stderr).group(1))


def count_all(program, folder):
    """Prints how many instructions each command takes for a stamp, and comments for a byte."""
    stamps = os.path.join(folder, "drawn.txt")
    with open(stamps, "wb") as file:
        file.write(drawn_stamps())
    remarks = os.path.join(folder, "comments.txt")
    with open(remarks, "wb") as file:
        file.write(comments())
    print("\n| command | instructions |\n|---|---|")
    for words in COUNTED:
        count = instructions(program, words, stamps) // DRAWN
        print(f"| {' '.join(words)}, instructions a stamp | {count:,} |", flush=True)
    count = instructions(program, ["make", "7", str(DRAWN)], os.devnull) // DRAWN
    print(f"| make, instructions a stamp | {count:,} |")
    count = instructions(program, ["stamps"], remarks) / (len(COMMENT) * COMMENTS)
    print(f"| comments, instructions a byte | {count:.2f} |")


def time_all(program, folder, runs):
    """Prints the table of times."""
    head = ["command", "stamps", "user ms", "system ms", "both ms", "spread ms", "MB/s in", "MB/s out", "stamps/s", "writes/line", "growth"]
    rows = [head]
    files = make_inputs(program, folder)
    for command, sizes in SIZES.items():
        before = None
        for size in sizes:
            source = os.devnull if command == "make" else files[size]
            row, median = measure(program, command, size, source, runs, folder)
            # How often the time grows for each time that the size does: 1 where it grows with it.
            growth = "-"
            if before and before[1] > 0:
                growth = f"{(median / before[1]) / (size / before[0]):.2f}"
            before = (size, median)
            rows.append(row + [growth])
    widths = [max(len(row[k]) for row in rows) for k in range(len(head))]
    for row in rows:
        print("  ".join(cell.rjust(width) for cell, width in zip(row, widths)).rstrip(), flush=True)


def main():
    parser = argparse.ArgumentParser(description=__doc__)
    parser.add_argument("program", help="the built program")
    parser.add_argument("--runs", type=int, default=7, help="runs of each command and size (7)")
    parser.add_argument("--count", action="store_true", help="count instructions only")
    options = parser.parse_args()
    program = os.path.abspath(options.program)
    with tempfile.TemporaryDirectory() as folder:
        if not options.count:
            time_all(program, folder, options.runs)
        if shutil.which("valgrind"):
            count_all(program, folder)
        else:
            print("no valgrind is installed, so no instructions are counted", file=sys.stderr)


if __name__ == "__main__":
    main()
