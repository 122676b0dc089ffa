"""`look watch`: where the daemon and the clock stand, again and again while `collect` writes."""
import os
import re
import shutil
import subprocess
import sys
import time
from collections import namedtuple

import clock
import summary
from exchanges import micros, read_exchanges
from journal import Journal
from report import GRAINS, Wrong, read_report

HERE = os.path.dirname(os.path.abspath(__file__))
CLEAR = "\x1b[H\x1b[2J"
COLLECT_WAIT = 10  # seconds
NOW = re.compile(rb"([0-9]{1,20}) ([0-9]{1,12})\.([0-9]{9}) ([0-9]{1,12})\.([0-9]{9})\n")

# A count, and the system's clock right before and right behind its reading, in nanoseconds since 1970.
Moment = namedtuple("Moment", "count before behind")


def program_at(name, built):
    """A program: as it was built in this repository, else beside an installed `look`, else on the path."""
    top = os.path.join(HERE, "..", "..")
    found = [path for path in (os.path.join(top, built), os.path.join(top, "..", "bin", name)) if os.access(path, os.X_OK)]
    return os.path.normpath(found[0]) if found else shutil.which(name) or name


PROGRAM = program_at("radclock", os.path.join("crates", "radclock", "out", "radclock"))  # where `rt run` builds it
COLLECT = program_at("collect", os.path.join("tools", "collect", "collect"))


def whole_lines(path):
    """The text of a growing file, up to the last line feed."""
    try:
        with open(path, "rb") as file:
            read = file.read()
    except OSError as error:
        raise Wrong(f"{path}: {error.strerror}") from None
    return read[:read.rfind(b"\n") + 1]


def estimate(program, stamps):
    """The report of `estimate` over a text of stamps."""
    try:
        done = subprocess.run([program, "estimate"], input=stamps, capture_output=True, check=False)
    except OSError as error:
        raise Wrong(f"{program}: {error.strerror}; build it with `rt run` in crates/radclock, or tell where it is by --program") from None
    return read_report(done.stdout.decode("ascii", "replace"))


def moment_by(collect):
    """The counter now and the system's clock beside it, as `collect` reads both."""
    try:
        done = subprocess.run([collect, "--now", "--system"], capture_output=True, timeout=COLLECT_WAIT, check=True)
    except (OSError, subprocess.SubprocessError):
        done = None
    found = done and NOW.fullmatch(done.stdout)
    if not found:
        raise Wrong(f"`{collect} --now --system` tells no count")
    return Moment(int(found[1]), int(found[2] + found[3]), int(found[4] + found[5]))


def moment_now(collect, exchanges):
    """The same by the counter that the file was collected by."""
    if exchanges.is_raw_clock:
        return Moment(before=time.time_ns(), count=time.clock_gettime_ns(time.CLOCK_MONOTONIC_RAW), behind=time.time_ns())
    now = moment_by(collect)
    return now._replace(count=now.count - exchanges.base) if now.count >= exchanges.base else now


def now_lines(report, exchanges, collect):
    """The time now by the counter, beside the system's clock."""
    try:
        tick = Journal(report, from_zero=False).ticks[-1]
        count, before, behind = moment_now(collect, exchanges)
    except Wrong as wrong:
        yield "Now", f"not known: {wrong}"
        return
    if count < tick.count:
        yield "Now", f"not known: the counter stands at {count}, before the last estimate. Is it another computer, or was it started anew?"
        return
    now, bound = clock.utc(tick, count), clock.nanos_ceil(clock.time_bound(tick, count))
    middle, half = (before + behind) // 2, (behind - before + 1) // 2
    ahead = micros(middle * GRAINS // clock.NANOS - now)
    yield "Now by counter", clock.date(clock.nanos_floor(now)) + (f", off by {bound} ns at most" if clock.is_bounded(tick) else ", without a bound")
    yield "Now by system", f"{clock.date(middle)}, ahead by {ahead} (read within {half} ns of the counter)"


def lines(path, program, collect):
    """What one round shows."""
    stamps = whole_lines(path)
    if stamps.count(b"\n") < 2:
        return [f"{path}: no exchanges yet"]
    report = estimate(program, stamps)
    exchanges = read_exchanges(stamps.decode("ascii", "replace"))
    now = now_lines(report, exchanges, collect) if report.accepted else []
    return summary.lines(report, exchanges) + summary.texts(now)


def watch(path, program, collect, every, rounds):
    """Shows so many rounds, or rounds without end where the number is 0, each on a clear screen where there is one."""
    shown = 0
    while True:
        told = "\n".join(lines(path, program, collect))
        print(CLEAR + told if sys.stdout.isatty() else told, flush=True)
        shown += 1
        if shown == rounds:
            return
        time.sleep(every)
        if not sys.stdout.isatty():
            print()
