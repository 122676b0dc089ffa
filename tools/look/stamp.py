"""`look stamp`: a text with the counts of a raw counter becomes one with times, line by line."""
import re

import clock
from clock import NANOS
from frequency import is_at_limit

COUNTS = 1 << 62
COUNT = rb"[0-9]{1,40}"
FIRST_NUMBER = re.compile(rb"(?<![\w.+-])(" + COUNT + rb")(?!\w|\.\w)")


def column(number):
    """Finds what stands in a column, if that is a number. Blanks and tabs part columns, and the first one is 1."""
    return re.compile(rb"[ \t]*(?:[^ \t\r\n]+[ \t]+){%d}(%b)(?![^ \t\r\n])" % (number - 1, COUNT))


class Seconds(dict):
    """How the dates of a second are written, by the seconds since 1970: one word. A trace has many of each second."""

    def __missing__(self, seconds):
        if len(self) > 4096:
            self.clear()
        day = clock.day_of(seconds, "T")
        self[seconds] = f"{day}.%09dZ" if day else f"{seconds}.%09d"
        return self[seconds]


SECONDS = Seconds()


def date_down(grains):
    """A time as a date, rounded down. This and the next one call nothing: they are done three times a line."""
    seconds, rest = divmod(grains * NANOS >> 64, NANOS)
    return SECONDS[seconds] % rest


def date_up(grains):
    seconds, rest = divmod(-(-grains * NANOS >> 64), NANOS)
    return SECONDS[seconds] % rest


DATES = (date_down, date_up)  # how a time is written, and how one that is rounded up
EXACT = (clock.exact, clock.exact)


def teller(tick, form, marks):
    """Tells counts by a tick: the time, the earliest, the latest, the marks. The bound is rounded outwards."""
    down, up = form
    start, time, period, bound_at = tick.count, tick.time, tick.period, clock.bound_by(tick)

    def unbounded(count):
        return f"{down(time + (count - start) * period)} - - {marks}".encode()

    def bounded(count):
        at, bound = time + (count - start) * period, bound_at(count)
        return f"{down(at)} {down(at - bound)} {up(at + bound)} {marks}".encode()

    return bounded if clock.is_bounded(tick) else unbounded


class Stamper:
    """Puts times for counts. It keeps nothing of the lines but how many counts it told and left."""

    def __init__(self, journal, frequency, form=DATES, beyond=False):
        self.journal = journal
        self.frequency = frequency
        self.form = form
        self.beyond = beyond
        self.told = self.before = self.after = self.without = 0

    def marks(self, tick, is_beyond):
        marks = tick.clock_marks.replace("-", "")
        marks += "F" if is_at_limit(tick, self.frequency) else ""
        return marks + ("B" if is_beyond else "") or "-"

    def span(self, count):
        """
        What tells a count, or None, and the counts that this holds for: those above the first number, up to the second.
        Counts of a trace mostly rise, so the next one is mostly told by the same.
        """
        journal = self.journal
        if count >= COUNTS:
            return 0, 0, None
        if journal.is_before(count):
            return -1, journal.counts[0] - 1, None
        place = journal.newest(count)
        tick = journal.ticks[place]
        last = len(journal.ticks) - 1
        is_beyond = journal.is_beyond(count)
        low = journal.reach if is_beyond else tick.count - 1
        high = COUNTS if is_beyond else journal.reach if place == last else journal.counts[place + 1] - 1
        is_told = self.beyond or not is_beyond
        return low, high, teller(tick, self.form, self.marks(tick, is_beyond)) if is_told else None

    def leave(self, count):
        """Counts one more line that is left."""
        if count >= COUNTS:
            self.without += 1
        elif self.journal.is_before(count):
            self.before += 1
        else:
            self.after += 1

    def lines(self, lines, find):
        """The lines with words for the counts. `find` gives a match whose first group is the count."""
        low = high = told = 0
        for line in lines:
            found = find(line)
            count = int(found[1]) if found else COUNTS
            if not low < count <= high:
                low, high, tell = self.span(count)
            if tell:
                told += 1
                begin, end = found.span(1)
                yield line[:begin] + tell(count) + line[end:]
            else:
                self.leave(count)
                yield line
        self.told += told

    def left(self):
        """What is to be said at the end of counts that were left, or None."""
        if self.before + self.after:
            return (f"counts that are left as they are: {self.before} before the first time that is known, "
                    f"{self.after} beyond the journal, which goes from {self.journal.counts[0]} to {self.journal.reach}")
        return "no line has a count there" if self.without and not self.told else None
