"""The journal of a report: which tick a count is told by, and how far the ticks reach."""
from bisect import bisect_left, bisect_right

from frequency import limits
from report import Tick, Wrong


def tick_of_estimate(number, estimate):
    """The tick that takes an estimate at its own count. Its uninterrupted clock is not known, and set to the absolute one."""
    e = estimate
    return Tick(number, "take", e.count, e.time, e.time, e.period, 0, e.marks, e.time, e.count, e.period, e.error, e.rate_error,
                e.marks, e.due, e.total, e.leap)


def tick_of_set(number, clock_set, frequency):
    """The tick that sets the clock, by the nominal period and without a bound."""
    period, time, count = sum(limits(frequency)) // 2, clock_set.time, clock_set.count
    return Tick(number, "reset", count, time, time, period, time, "U", time, count, period, 0, 0, "U", 0, 0, 0)


def ticks_of_estimates(report):
    """The journal without plain ticks, from a report of `estimate`, in the order of the file."""
    places = iter([*report.places, None])
    sets, place, ticks = iter(report.sets), next(places), []
    for number, estimate in enumerate([*report.estimates, None]):
        while place == number:
            ticks.append(tick_of_set(len(ticks), next(sets), report.frequency))
            place = next(places)
        if estimate:
            ticks.append(tick_of_estimate(len(ticks), estimate))
    return ticks


def first_known(ticks):
    """The number of the first tick that knows the time. Tick 1 sets the clock to zero at the count 0, for want of a time."""
    known = (tick.number for tick in ticks[2:] if tick.how in ("jump", "take", "reset"))
    return next(known, len(ticks))


def met(report):
    """The counts that the counter is known to have come to, beside those of ticks."""
    return [r.count for r in report.readings if r.kind != "diff"] + [a.met for a in report.aheads]


class Journal:
    """The ticks that tell counts: all of them, or from the first one on that knows the time."""

    def __init__(self, report, from_zero=True):
        ticks = report.ticks
        self.ticks = (ticks if from_zero else ticks[first_known(ticks):]) if ticks else ticks_of_estimates(report)
        if not self.ticks or report.tells("base"):
            raise Wrong("no time is known: this needs a report of estimate, ticks or replay over exchanges")
        self.counts = [tick.count for tick in self.ticks]
        self.reach = max([self.counts[-1], *met(report)])

    def is_before(self, count):
        return count < self.counts[0]

    def is_beyond(self, count):
        """Whether the report does not show that the counter came so far while the last tick was the newest."""
        return count > self.reach

    def past(self, count):
        """The place of the tick that a past count is read by: the last one whose count is below, or the first."""
        return max(bisect_left(self.counts, count) - 1, 0)

    def current(self, count):
        """The ticks that are current at a count: that which a past count is read by, and those of that very count."""
        return self.ticks[self.past(count):bisect_right(self.counts, count)]

    def newest(self, count):
        """The place of the newest tick at a count, which is not before the first: at the count of an exchange, that of its own estimate."""
        return bisect_right(self.counts, count) - 1
