"""Reads a report of `rtt`, `estimate`, `ticks` or `replay`, of either version. Its lines stand in docs/FORMATS.md."""
import re
from collections import namedtuple

GRAINS = 1 << 64  # of a second

NUMBER = r"(?:0|[1-9][0-9]{0,59})"
SIGNED = r"(?:0|-?[1-9][0-9]{0,59})"
NUMBERS = re.compile(NUMBER)
WHOLE = re.compile(SIGNED)
TIMES = re.compile(f"({SIGNED})\\+({NUMBER})")


class Wrong(Exception):
    """What is wrong, in one line."""


# The lines. Times, spreads and bounds are in grains, periods in grains a count, round trips in counts, the error of a
# time in ns and that of a period in parts in 10^12. What a miss met is the oldest count of a tick, or the counter.
Estimate = namedtuple("Estimate", "number count time period error rate_error marks spread low high flags due total leap",
                      defaults=(0, 0, 0))
Base = namedtuple("Base", "number trip base start shifted")
Refused = namedtuple("Refused", "line name")
Set = namedtuple("Set", "count time")
Leap = namedtuple("Leap", "count sign")
Tick = namedtuple("Tick", "number how count time lerp slope boot clock_marks given update period error rate_error marks"
                  " due total leap")
Fire = namedtuple("Fire", "tick timer due")
Reading = namedtuple("Reading", "reader attempt kind tick count time bound")
Again = namedtuple("Again", "reader attempt kind first last")
Miss = namedtuple("Miss", "reader attempt count met")

KINDS = ("abs", "mono", "uptime", "fast", "diff", "back", "utc")
HOWS = ("cold", "plain", "take", "jump", "reset")
TESTS = ("backward", "server-backward", "overlap", "server-old", "long-trip", "acausal", "unsynchronised", "before-set",
         "set-old", "leap-old", "leap-pending", "leap-unannounced", "leap-limit")


def number(piece):
    if not NUMBERS.fullmatch(piece):
        raise Wrong(f"`{piece}` is no number")
    return int(piece)


def signed(piece):
    if not WHOLE.fullmatch(piece):
        raise Wrong(f"`{piece}` is no whole number")
    return int(piece)


def time(piece):
    found = TIMES.fullmatch(piece)
    if not found or int(found[2]) >= GRAINS:
        raise Wrong(f"`{piece}` is no time")
    return int(found[1]) * GRAINS + int(found[2])


def one_of(*words):
    def word(piece):
        if piece not in words:
            raise Wrong(f"`{piece}` is none of {', '.join(words)}")
        return piece

    return word


def flags(piece):
    if not re.fullmatch("[S-][L-][P-]", piece):
        raise Wrong(f"`{piece}` is not three flags")
    return piece


def sign(piece):
    return int(one_of("1", "-1")(piece))


marks = one_of("-", "U", "W", "UW")
kind = one_of(*KINDS)

# What a line is and how each of its pieces is read, by its first word.
LINES = {
    "estimate": (Estimate, (number, number, time, number, number, number, marks, number, number, number, flags)),
    "base": (Base, (number, number, number, number, number)),
    "refused": (Refused, (number, one_of(*TESTS))),
    "set": (Set, (number, time)),
    "leap": (Leap, (number, sign)),
    "tick": (Tick, (number, one_of(*HOWS), number, time, time, number, time, marks, time, number, number, number,
                    number, marks, number, signed, signed)),
    "fire": (Fire, (number, number, time)),
    "read": (Reading, (number, number, kind, number, number, time, number)),
    "again": (Again, (number, number, kind, number, number)),
    "old": (Miss, (number, number, number, number)),
    "ahead": (Miss, (number, number, number, number)),
}

# The lines of a command, in the order of their parts, and those that only a report of version 2 has.
PARTS = {
    "rtt": (("base", "refused", "set", "leap"),),
    "estimate": (("estimate", "refused", "set", "leap"),),
    "ticks": (("tick", "fire"),),
    "replay": (("estimate", "refused", "set", "leap"), ("tick",), ("read", "again", "old", "ahead")),
}
SECOND = ("set", "leap")
TOLD_LEAPS = (number, signed, signed)  # what an estimate of version 2 tells of leap seconds

HEAD = re.compile(f"report (?:(rtt|estimate) freq ({NUMBER})|(ticks) freq ({NUMBER}) ticks {NUMBER}(?: timers ({NUMBER}))?"
                  f"|(replay) freq ({NUMBER}) ticks {NUMBER} readers {NUMBER} reads {NUMBER}(?: back)?(?: crank)?(?: utc)?(?: lane)?)( version 2)?")


class Report:
    """A whole report. Its lists are empty where the command tells no such lines."""

    def __init__(self, command, frequency, version, timers):
        self.command = command
        self.frequency = frequency
        self.version = version
        self.timers = timers  # how many were asked for, or None
        self.reached = 0  # the count of the last estimate or set
        self.places = []  # how many accepted stamps came before each set
        self.lines = {word: [] for word in LINES}
        self.accepted = 0  # numbers of stamps
        self.refusals = 0

    estimates = property(lambda self: self.lines["estimate"])
    bases = property(lambda self: self.lines["base"])
    refused = property(lambda self: self.lines["refused"])
    sets = property(lambda self: self.lines["set"])
    leaps = property(lambda self: self.lines["leap"])
    ticks = property(lambda self: self.lines["tick"])
    fires = property(lambda self: self.lines["fire"])
    readings = property(lambda self: self.lines["read"])
    agains = property(lambda self: self.lines["again"])
    olds = property(lambda self: self.lines["old"])
    aheads = property(lambda self: self.lines["ahead"])

    def entries(self):
        return sum(len(self.lines[word]) for word in PARTS["replay"][-1])

    def tells(self, word):
        return (any(word in part for part in PARTS[self.command]) and (self.version == 2 or word not in SECOND)
                and (self.timers is not None or word != "fire"))

    def add(self, line):
        """Takes one line behind the head, that is not the end line."""
        word, *pieces = line.split(" ")
        if word not in LINES or not self.tells(word):
            raise Wrong(f"`{word}` is no line of a report of `{self.command}`")
        parts = PARTS[self.command]
        place = next(i for i, part in enumerate(parts) if word in part)
        if any(self.lines[later] for part in parts[place + 1:] for later in part):
            raise Wrong(f"`{word}` stands too late")
        shape, readers = LINES[word]
        readers += TOLD_LEAPS if word == "estimate" and self.version == 2 else ()
        if len(pieces) != len(readers):
            raise Wrong(f"`{word}` has {len(pieces)} values and not {len(readers)}")
        self.lines[word].append(shape(*(read(piece) for read, piece in zip(readers, pieces))))
        self.check_last(word)

    def check_last(self, word):
        """Tests the newest line of a word against the ones before it."""
        lines = self.lines[word]
        last = lines[-1]
        if word in ("estimate", "base", "tick") and last.number != len(lines) - 1:
            raise Wrong(f"`{word} {last.number}` stands where {len(lines) - 1} is due")
        if word == "tick" and len(lines) > 1 and last.count < lines[-2].count:
            raise Wrong(f"the count of `tick {last.number}` is below the one before")
        if word in ("estimate", "set"):
            if last.count < self.reached:
                raise Wrong(f"the count {last.count} of `{word}` is below the one before")
            self.reached = last.count
        if word == "set":
            self.places.append(len(self.estimates or self.bases))
        if word in ("estimate", "tick") and last.period == 0 and getattr(last, "how", "") != "cold":
            raise Wrong(f"`{word} {last.number}` has no period")
        if word == "fire" and (last.tick != len(self.ticks) - 1 or last.timer >= self.timers):
            raise Wrong(f"the timer {last.timer} does not fire at tick {last.tick} there")
        if word == "read" and last.tick >= len(self.ticks):
            raise Wrong(f"there is no tick {last.tick}")

    def finish(self, line):
        """Takes the end line, whose numbers tell that nothing is lost."""
        due = f"end accepted {NUMBER} refused {NUMBER}"
        due += f" ticks {len(self.ticks)}" if self.tells("tick") else ""
        due += f" entries {self.entries()}" if self.tells("read") else ""
        due += f" fired {len(self.fires)}" if self.tells("fire") else ""
        if not re.fullmatch(due, line):
            raise Wrong("no end line that fits the lines before it")
        self.accepted, self.refusals = (int(n) for n in line.split(" ")[2:5:2])
        stamps = {"rtt": self.bases, "ticks": None}.get(self.command, self.estimates)
        if stamps is not None and (len(stamps), len(self.refused)) != (self.accepted, self.refusals):
            raise Wrong("no end line that fits the lines before it")


def head_of(line):
    if line.startswith("fault "):
        raise Wrong(f"the program told a fault: {line}")
    found = HEAD.fullmatch(line)
    if not found:
        raise Wrong("no report of rtt, estimate, ticks or replay")
    *pieces, version = found.groups()
    timers = pieces.pop(4)
    command, frequency = (piece for piece in pieces if piece is not None)
    if not 1_000_000 <= int(frequency) <= 16_000_000_000:
        raise Wrong(f"no counter has {frequency} Hz here")
    return Report(command, int(frequency), 2 if version else 1, None if timers is None else int(timers))


def read_report(text):
    """The report that a text is. `Wrong` tells the first line that does not fit."""
    lines = text.split("\n")
    if lines[-1] != "":
        raise Wrong("the report is cut off: its last line does not end")
    place = 1
    try:
        report = head_of(lines[0])
        for place, line in enumerate(lines[1:-2], start=2):
            report.add(line)
        place = len(lines) - 1
        report.finish(lines[-2])
    except Wrong as wrong:
        raise Wrong(f"line {place}: {wrong}") from None
    return report
