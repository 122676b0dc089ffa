"""What both clocks said at each moment of truth, beside the truth. Each is read as it stood then, never by what came later."""
import calendar
import os
import subprocess
import sys
import time
from bisect import bisect_left
from collections import namedtuple

import needs
from cases import CASES, ahead
from children import Fault

sys.path.insert(0, os.path.join(needs.TOP, "tools", "look"))
import clock  # noqa: E402  of tools/look
from journal import Journal  # noqa: E402
from report import GRAINS, Wrong, read_report  # noqa: E402

NANOS = 10**9

Truth = namedtuple("Truth", "count nanos window answers")  # answers: of each port that gave one
Answer = namedtuple("Answer", "left came sent back leap delay dispersion")

# One reading, in ns: how far the clock is ahead of the server's time, its bound, and by how many ppm it takes a second for too long,
# with the bound of that. `span` is the length of a count by it, in grains, where it has such.
Reading = namedtuple("Reading", "error bound rate rate_bound span")


def read_probe(path):
    """The moments of truth. A last line that is cut off is left."""
    moments = []
    with open(path) as file:
        for line in file:
            word, *rest = line.split()
            if not line.endswith("\n"):
                break
            if word == "truth":
                count, nanos, window = map(int, rest)
                moments.append(Truth(count, nanos, window, {}))
            else:
                port, *numbers = map(int, rest)
                moments[-1].answers[port] = Answer(*numbers)
    return moments


def report_of(program, command, path):
    """A report of radclock over what collect wrote."""
    with open(path, "rb") as stamps:
        done = subprocess.run([program, *command], stdin=stamps, capture_output=True)
    try:
        return read_report(done.stdout.decode())
    except Wrong as wrong:
        raise Fault(f"radclock {command[0]} over {path}: {wrong}") from None


def nanos_of(grains):
    return grains * NANOS / GRAINS


class Radclock:
    """The clock by a stamp file: at each count by the newest tick there."""

    def __init__(self, program, path):
        self.journal = Journal(report_of(program, ["ticks", "--ticks", "0"], path), from_zero=False)
        self.estimates = report_of(program, ["estimate"], path)
        self.trips = report_of(program, ["rtt"], path)

    def at(self, truth, lead):
        journal = self.journal
        if journal.is_before(truth.count):
            return None
        tick = journal.ticks[journal.newest(truth.count)]
        if not clock.is_bounded(tick):
            return None
        whole = truth.nanos * GRAINS // NANOS  # apart from the lead, so that floats are of small numbers
        error = nanos_of(clock.absolute(tick, truth.count) - whole) - lead
        return Reading(error, nanos_of(clock.time_bound(tick, truth.count)), None, tick.rate_error / 1e6, tick.period)


class Chrony:
    """The clock that a chronyd serves, and the frequency that its log tells."""

    def __init__(self, log, port):
        self.port = port
        self.tracked = list(tracking(log))
        self.seconds = [second for second, _, _ in self.tracked]

    def at(self, truth, lead):
        answer = truth.answers.get(self.port)
        if answer is None or answer.leap == 3:
            return None
        error = (answer.came - answer.left + answer.sent - answer.back) / 2 - lead
        place = bisect_left(self.seconds, truth.nanos // NANOS) - 1
        rate, skew = self.tracked[place][1:] if place >= 0 else (None, None)
        return Reading(error, (answer.delay / 2 + answer.dispersion) / 65536 * NANOS, rate, skew, None)


def tracking(path):
    """Of each update in chronyd's log: the second, by how many ppm it takes the server for faster than the system clock, the skew."""
    with open(path) as file:
        for line in file:
            pieces = line.split()
            if len(pieces) < 14 or not pieces[0][0].isdigit():
                continue
            second = time.strptime(" ".join(pieces[:2]) + " UTC", "%Y-%m-%d %H:%M:%S %Z")
            yield calendar.timegm(second), -float(pieces[4]), float(pieces[5])


class Series:
    """One case: at each moment the server's lead over the system clock and the readings of all clocks, where all of them have one."""

    def __init__(self, folder, name, told, moments, program):
        case, home = CASES[name], os.path.join(folder, name)
        self.clocks = {"radclock": Radclock(program, f"{home}/radclock.txt"), "plain": Radclock(program, f"{home}/plain.txt"),
                       "chrony": Chrony(f"{home}/chrony/tracking.log", told["ports"][name])}
        self.moments, self.readings = [], {client: [] for client in self.clocks}
        self.leads = []
        for truth in moments:
            lead = ahead(case, told["start"], truth.nanos)
            here = {client: clock_.at(truth, lead) for client, clock_ in self.clocks.items()}
            if None in here.values():
                continue
            self.moments.append(truth)
            self.leads.append(lead)
            for client, reading in here.items():
                self.readings[client].append(reading)
