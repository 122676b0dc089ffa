"""What the comments of a stamp file say, as `collect` writes them: the system's clock, and which counter it was."""
import re
from collections import namedtuple
from statistics import median_low

import clock
from journal import Journal
from report import GRAINS

SYSTEM = re.compile(r"# system ([0-9]{1,12})\.([0-9]{9})")
STAMP = re.compile(r"[0-9]{1,19} [0-9.]{1,20} [0-9.]{1,20} ([0-9]{1,19})(?: [0-9]{1,3} [0-9])?")
RAW_CLOCK = "# The counter is CLOCK_MONOTONIC_RAW"
BASE = re.compile(r"# Each count is written less ([0-9]{1,20})\.")

# The pairs are a reply's count, and the system's clock at it in nanoseconds since 1970.
Exchanges = namedtuple("Exchanges", "systems is_raw_clock base")


def systems_of(lines):
    """The system's clock at each stamp that has it in the line before."""
    for before, line in zip(lines, lines[1:]):
        system, stamp = SYSTEM.fullmatch(before), STAMP.fullmatch(line)
        if system and stamp:
            yield int(stamp[1]), int(system[1] + system[2])


def read_exchanges(text):
    lines = [line.rstrip("\r") for line in text.split("\n")]
    base = next((int(found[1]) for found in map(BASE.fullmatch, lines) if found), 0)
    return Exchanges(list(systems_of(lines)), any(line.startswith(RAW_CLOCK) for line in lines), base)


def offs(report, exchanges):
    """By how many grains the system's clock is ahead of UTC by the report, at each reply that the report knows the time of."""
    if not (report.estimates or report.ticks):
        return
    journal = Journal(report, from_zero=False)
    for count, nanos in exchanges.systems:
        tick = journal.ticks[journal.newest(count)]
        if not journal.is_before(count) and clock.is_bounded(tick):
            yield nanos * GRAINS // clock.NANOS - clock.utc(tick, count)


def micros(grains):
    sign = "-" if grains < 0 else "+"
    nanos = clock.nanos_floor(abs(grains))
    return f"{sign}{nanos // 1000}.{nanos % 1000:03d} us"


def system_lines(report, exchanges):
    """How far the computer's own clock is off by the report."""
    found = list(offs(report, exchanges))
    told = (f"{micros(median_low(found))} in the middle, {micros(found[-1])} at the last of {len(found)} exchanges; above 0 it is ahead"
            if found else "not known: no comment `# system` stands before an exchange that the report knows")
    yield "System clock", told
