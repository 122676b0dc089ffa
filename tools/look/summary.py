"""`look summary`: where the daemon and the clock stand at the end of a report."""
from collections import Counter
from fractions import Fraction

import clock
from exchanges import system_lines
from frequency import parts_in_million, warning
from report import GRAINS, HOWS, KINDS, TESTS


def by_name(names, found):
    """How many there are of each name."""
    counted = Counter(found)
    return ", ".join(f"{name} {counted[name]}" for name in names if counted[name]) or "none"


def estimate_lines(count, time, of, frequency):
    """An estimate: `of` is an estimate or a tick, which both have its period, errors and marks."""
    hertz = Fraction(GRAINS, of.period)
    yield "Time", clock.date(clock.nanos_floor(time))
    yield "At the count", str(count)
    yield "Time bound", "none" if "U" in of.marks else f"{of.error} ns"
    yield "Frequency", f"{clock.decimal(hertz, 6)} Hz"
    yield "From nominal", f"{clock.decimal(parts_in_million(of.period, frequency), 6)} ppm"
    yield "Rate bound", "none" if "U" in of.marks else f"{clock.decimal(Fraction(of.rate_error, 10**6), 6)} ppm"
    yield "Marks", {"-": "none", "U": "not synchronised", "W": "warming up"}.get(of.marks, "not synchronised, warming up")


def last_estimate(report):
    if report.estimates:
        last = report.estimates[-1]
        yield from estimate_lines(last.count, last.time, last, report.frequency)
        return
    taken = [tick for tick in report.ticks if tick.how in ("take", "jump")]
    if taken:
        last = report.ticks[-1]
        yield from estimate_lines(last.update, last.given, last, report.frequency)


def leap_lines(report):
    """What the last estimate tells of leap seconds, and the sets, in a report of version 2."""
    told = (report.estimates or report.ticks)[-1:]
    for last in told:
        coming = f", one more is {'inserted' if last.leap > 0 else 'deleted'} behind the count {last.due}" if last.leap else ""
        yield "Leap seconds", f"{last.total:+d} so far{coming}" if last.total else f"none so far{coming}"
    if report.tells("set"):
        last = "".join(f", the last at the count {s.count} to {clock.date(clock.nanos_floor(s.time))}" for s in report.sets[-1:])
        yield "Sets", f"{len(report.sets)}{last}"


def stamp_lines(report):
    yield "Accepted", f"{report.accepted} exchanges"
    names = f": {by_name(TESTS, (r.name for r in report.refused))}" if report.refused else ""
    yield "Refused", f"{report.refusals}{names}"
    if report.tells("estimate"):
        flags = Counter("".join(e.flags for e in report.estimates))
        yield "Level shifts", str(flags["S"])
        yield "Local rates", str(flags["L"])
        yield "Predictions", str(flags["P"])
    if report.tells("base"):
        yield "Level shifts", str(sum(base.shifted for base in report.bases))
    if report.bases:
        base = Fraction(report.bases[-1].base * 10**6, report.frequency)
        yield "Base", f"{report.bases[-1].base} counts, {clock.decimal(base, 3)} us"


def clock_lines(report):
    if report.ticks:
        last = report.ticks[-1]
        ahead = Fraction((last.lerp - last.time) * clock.NANOS, GRAINS)
        yield "Ticks", by_name(HOWS, (tick.how for tick in report.ticks))
        yield "Uninterrupted", f"{clock.decimal(ahead, 3)} ns ahead of the absolute clock"
    if report.tells("fire"):
        yield "Timers", f"{len(report.fires)} of {report.timers} fired"
    if report.tells("read"):
        yield "Reads", by_name(KINDS, (r.kind for r in report.readings))
        yield "Again", by_name(KINDS, (a.kind for a in report.agains))
        yield "Too old", str(len(report.olds))
        yield "Ahead", str(len(report.aheads))


def texts(told):
    return [f"{name:<14}: {value}" for name, value in told]


def lines(report, exchanges=None):
    """The lines of the summary. Where the frequency is wrong, that is the first one."""
    wrong = warning((report.estimates or report.ticks)[-1:], report.frequency)
    told = [("WARNING", wrong)] if wrong else []
    told += [("Counter", f"{report.frequency} Hz")]
    told += last_estimate(report) if report.accepted else [("Time", "no estimate")]
    told += leap_lines(report) if report.version == 2 else []
    told += stamp_lines(report)
    told += clock_lines(report)
    told += system_lines(report, exchanges) if exchanges else []
    return texts(told)
