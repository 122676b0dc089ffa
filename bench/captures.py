#!/usr/bin/env python3
"""Counts the instructions of `radclock capture`, and of a plain reader of captures. See README.md."""
import argparse
import os
import re
import struct
import subprocess
import tempfile

PLAIN = os.path.join(os.path.dirname(os.path.abspath(__file__)), "capture.c")
HEAD = b"RADCAP01" + struct.pack("!Q", 10**9)
MOST = 16_777_216  # bytes of an input
EXCHANGES = 65_536  # the most that a capture may have
ERA = 2_208_988_800


def record(count, received, packet):
    return struct.pack("!QBH", count, received, len(packet)) + packet


def passed_over():
    """As many records as an input has room for, of which none is a request or a reply."""
    one = record(10**9, 1, bytes(48))
    return HEAD + one * ((MOST - len(HEAD)) // len(one))


def exchanges():
    """As many exchanges as a capture may have, one each 16 s."""
    parts = [HEAD]
    for i in range(1, EXCHANGES + 1):
        mark, seconds, count = struct.pack("!Q", i), ERA + 1_700_000_000 + 16 * i, 16 * 10**9 * i
        times = struct.pack("!IIII", seconds, 2_654_435_761 * i % 2**32, seconds, 40_503 * i % 2**32)
        parts.append(record(count, 0, b"\x23" + bytes(39) + mark))
        parts.append(record(count + 100_000 + i % 1000, 1, b"\x24\x02" + bytes(22) + mark + times))
    return b"".join(parts)


def instructions(command, text):
    """How many instructions the command takes on this text by callgrind, and what it writes."""
    with tempfile.TemporaryFile() as source:
        source.write(text)
        source.seek(0)
        ran = subprocess.run(
            ["valgrind", "--tool=callgrind", f"--callgrind-out-file={os.devnull}", *command], stdin=source, capture_output=True, check=True
        )
    return int(re.search(rb"Collected : (\d+)", ran.stderr).group(1)), ran.stdout


def row(name, records, proved, plain, text):
    ours, said = instructions([proved, "capture"], text)
    theirs, due = instructions([plain, "write"], text)
    if said != due:
        raise SystemExit(f"{name}: the two write something else")
    empty = instructions([proved, "capture"], HEAD)[0], instructions([plain, "write"], HEAD)[0]
    own, other = (ours - empty[0]) / records, (theirs - empty[1]) / records
    print(f"| {name} | {own:,.0f} | {other:,.0f} | {own / other:.2f} |", flush=True)


def main():
    parser = argparse.ArgumentParser(description=__doc__)
    parser.add_argument("program", help="a built radclock")
    program = parser.parse_args().program
    with tempfile.TemporaryDirectory() as folder:
        plain = os.path.join(folder, "capture")
        subprocess.run([os.environ.get("CC", "cc"), "-O2", "-o", plain, PLAIN], check=True)
        print("| records | `capture` | plain C | ratio |\n|---|---|---|---|")
        text = passed_over()
        row("of no use, 16 MiB: read alone", len(text) // 59, program, plain, text)
        row(f"{EXCHANGES:,} exchanges, a request and a reply", EXCHANGES, program, plain, exchanges())


if __name__ == "__main__":
    main()
