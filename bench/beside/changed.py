"""
What the clock would be with one rule of the daemon changed. The rules of docs/DAEMON.md stand here once more, in floating point: good to a
fraction of a µs, which is told, and proved nowhere.
"""
from bisect import bisect_right
from collections import namedtuple

from figures import micros, quantile, sizes
from rules import WEIGHTS

Rules = namedtuple("Rules", "scale_us mean shifts local", defaults=(60, 32, True, True))
CHANGED = {"as it is": Rules(), "scale of 120 us": Rules(scale_us=120), "scale of 240 us": Rules(scale_us=240),
           "no level shift": Rules(shifts=False), "mean of 256 stamps": Rules(mean=256), "no local rate": Rules(local=False),
           "mean of 256 stamps, no level shift, no local rate": Rules(mean=256, shifts=False, local=False)}
BELIEVED = 5e-4  # how far a period may be from the nominal one
LONG, SHORT, NEAR = 1024, 64, 32  # stamps of the global rate and of the base, of the local rate, of a level shift
FAR, MOST_RUN = 1e6, 32  # the sanity check: ns, and how often in a row

Estimate = namedtuple("Estimate", "count time period spread rate_error")


class Daemon:
    """Counts are less the first one, and times in ns less the server's first one."""

    def __init__(self, frequency, rules):
        self.rules, self.nominal = rules, 1e9 / frequency
        self.scale = rules.scale_us * frequency / 1e6
        self.stamps, self.trips = [], []
        self.start, self.run, self.last = 0, 0, None
        self.shifted = 0  # how often the level did

    def believed(self, period):
        return min(max(period, self.nominal * (1 - BELIEVED)), self.nominal * (1 + BELIEVED))

    def rate(self, window):
        """The period by the pair of the last stamps, and its error."""
        end, trips = len(self.stamps), self.trips
        begin = max(0, end - window)
        if end - begin < 2:
            return self.nominal, self.nominal * BELIEVED
        quarter = max(1, (end - begin) // 4)
        j = min(range(begin, begin + quarter), key=trips.__getitem__)
        k = min(range(end - quarter, end), key=trips.__getitem__)
        grains = sum(self.stamps[k][1:3]) - sum(self.stamps[j][1:3])
        counts = self.stamps[k][0] + self.stamps[k][3] - self.stamps[j][0] - self.stamps[j][3]
        both = trips[j] + trips[k]
        period, low, high = (self.believed(grains / by) for by in (counts, counts + both, counts - both))
        return period, max(high - period, period - low)

    def base(self):
        """The least round trip of the level, which may begin anew."""
        i = len(self.trips) - 1
        base = min(self.trips[max(self.start, i - LONG + 1):])
        if self.rules.shifts and i - self.start >= NEAR:
            near = min(self.trips[-NEAR:])
            if near > base + 4 * self.scale:
                self.start, base = i - NEAR + 1, near
                self.shifted += 1
        return base

    def rate_in_use(self, whole):
        if not self.rules.local or len(self.stamps) < SHORT:
            return whole
        local = self.rate(SHORT)
        return local if abs(local[0] - whole[0]) <= 3e-7 * whole[0] else whole

    def mean(self, base, period, error):
        """The weighted mean of the times and of the spreads, or None."""
        now, total, time, spread = self.stamps[-1][3], 0.0, 0.0, 0.0
        for k in range(max(self.start, len(self.stamps) - self.rules.mean), len(self.stamps)):
            ta, tb, te, tf = self.stamps[k]
            row = int(8 * (self.trips[k] - base + ((now - tf) >> 23)) / self.scale)
            weight = WEIGHTS[row] if row < len(WEIGHTS) else 0
            gone = now - ta + now - tf
            total += weight
            time += weight * (tb + te + period * gone)
            spread += weight * (self.trips[k] * (period + error) + error * gone)
        return (time / total / 2, spread / total / 2) if total else None

    def choose(self, mean, predicted):
        if mean is None:
            return predicted
        if len(self.stamps) > 16 and abs(mean[0] - predicted[0]) > FAR and self.run < MOST_RUN:
            self.run += 1
            return predicted
        self.run = 0
        return mean

    def feed(self, stamp):
        self.stamps.append(stamp)
        self.trips.append(stamp[3] - stamp[0])
        base, whole, last = self.base(), self.rate(LONG), self.last
        gone = stamp[3] - last.count if last else 0
        predicted = (last.time + gone * whole[0], last.spread + gone * whole[1]) if last else None
        time, spread = self.choose(self.mean(base, *self.rate_in_use(whole)), predicted)
        self.last = Estimate(stamp[3], time, whole[0], spread, whole[1])
        return self.last


def readings(series, daemon, stamps):
    """The error and the bound of the clock at each moment, in ns, by this daemon."""
    count, nanos = stamps[0][0], stamps[0][1]
    made = [daemon.feed((ta - count, tb - nanos, te - nanos, tf - count)) for ta, tb, te, tf in stamps]
    counts = [e.count for e in made]
    for truth, lead in zip(series.moments, series.leads):
        e = made[bisect_right(counts, truth.count - count) - 1]
        gone = truth.count - count - e.count
        yield e.time + gone * e.period - (truth.nanos - nanos + lead), e.spread + gone * e.rate_error


def all_changed(series, stamps):
    """Of each change the errors in us and the middle of the bounds; and how far this writing is from the program's."""
    radclock = series.clocks["radclock"].estimates
    accepted = {e.count for e in radclock.estimates}
    stamps = [stamp for stamp in stamps if stamp[3] in accepted]
    told = {}
    for name, rules in CHANGED.items():
        daemon = Daemon(radclock.frequency, rules)
        errors, bounds = zip(*readings(series, daemon, stamps))
        told[name] = {**sizes(errors), "bound": micros(quantile(bounds, 0.5)), "level shifts of the whole run": daemon.shifted,
                      "outside": sum(abs(e) > b for e, b in zip(errors, bounds))}
        if rules == Rules():
            told["off the program_us"] = sizes([e - r.error for e, r in zip(errors, series.readings["radclock"])])
    return told
