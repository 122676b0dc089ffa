"""The rows of a picture: each draws what one report tells, over the one time axis. Numbers become floats only here."""
import math

import clock
from frequency import parts_in_million
from report import GRAINS

BLUE, ORANGE, RED, GREEN, GREY = "#2166ac", "#e08214", "#b2182b", "#1b7837", "#cccccc"
BAND = "#d1e5f0"
MARKERS = {"abs": ".", "mono": "+", "uptime": "1", "fast": "x", "back": "2", "utc": "3"}
MANY_WINDUPS = 300  # more lines than that would be a grey area


def micros(grains):
    return grains * 10**6 / GRAINS


def parts(points):
    """The points without those that are not there, as two lists."""
    there = [(x, y) for x, y in points if not math.isnan(y)]
    return [x for x, _ in there], [y for _, y in there]


def scale(axes, points):
    """
    Shows the last three quarters of the points, since the first ones are far off. Where points are cut away, a triangle
    stands at the edge.
    """
    seconds, values = parts(points)
    seen = values[len(values) // 4:]
    room = (max(seen) - min(seen)) * 0.08 or 1
    low, high = min(seen) - room, max(seen) + room
    axes.set_ylim(low, high)
    label = "cut off"
    for marker, edge, is_cut in (("^", 1, lambda y: y > high), ("v", 0, lambda y: y < low)):
        cut = [second for second, value in zip(seconds, values) if is_cut(value)]
        if cut:
            axes.plot(cut, [edge] * len(cut), marker, ms=4, color=RED, label=label, transform=axes.get_xaxis_transform(), clip_on=False)
            label = None


def finish(axes, axis, title, unit):
    """What all rows have: a line where the clock was set, the title, the legend."""
    label = "set"
    for second in axis.sets:
        axes.axvline(second, color=GREEN, lw=1, ls=":", label=label)
        label = None
    axes.set(title=title, ylabel=unit)
    axes.margins(x=0.01)
    axes.legend(loc="upper left", bbox_to_anchor=(1.005, 1), borderaxespad=0)


def trips(axes, report, axis):
    bases = report.bases
    places = [axis.of_exchange(b.number) for b in bases]
    in_micros = 10**6 / report.frequency
    axes.plot(places, [b.trip * in_micros for b in bases], ".", ms=3, color=BLUE, label="round trip")
    axes.plot(places, [b.base * in_micros for b in bases], drawstyle="steps-post", lw=1.5, color=ORANGE, label="base")
    label = "level shift"
    for place in (place for place, b in zip(places, bases) if b.shifted):
        axes.axvline(place, color=RED, lw=1, ls="--", label=label)
        label = None
    if max(b.trip for b in bases) > 4 * min(b.trip for b in bases):
        axes.set_yscale("log")
        axes.yaxis.set_major_formatter("{x:g}")
    finish(axes, axis, "Round trips", "µs")


def frequencies(report, axis):
    """Of each estimate: the second, and the parts in a million of its frequency, of the lowest and of the highest one."""
    for e in report.estimates:
        yield axis.second(e.count), *(float(parts_in_million(p, report.frequency)) for p in (e.period, e.high, e.low))


def frequency_in_bounds(axes, report, axis):
    seconds, values, lows, highs = zip(*frequencies(report, axis))
    axes.fill_between(seconds, lows, highs, color=BAND, lw=0, label="its bounds")
    axes.plot(seconds, values, lw=1.2, color=BLUE, label="frequency")
    scale(axes, [point for x, low, high in zip(seconds, lows, highs) for point in ((x, low), (x, high))])
    finish(axes, axis, "The counter's frequency, from nominal, with its bounds", "ppm")


def frequency(axes, report, axis):
    seconds, values, _, _ = zip(*frequencies(report, axis))
    axes.plot(seconds, values, ".-", ms=3, lw=1, color=BLUE, label="frequency")
    scale(axes, zip(seconds, values))
    finish(axes, axis, "The counter's frequency, from nominal, in its own scale", "ppm")


def lines_of(ticks, axis):
    """
    Of each tick that has a bound, at its own count and at that of the next one: the second, the gap, and the bound,
    in µs. Nothing is drawn from the last of them before a set on to the next estimate.
    """
    for tick, following in zip(ticks, ticks[1:] + ticks[-1:]):
        if not clock.is_bounded(tick):
            yield math.nan, math.nan, math.nan
            continue
        for count in (tick.count, following.count):
            gap = clock.uninterrupted(tick, count) - clock.absolute(tick, count)
            yield axis.second(count), micros(gap), micros(clock.time_bound(tick, count))


def time_bound(axes, journal, axis):
    seconds, _, bounds = zip(*lines_of(journal.ticks, axis))
    axes.plot(seconds, bounds, lw=1, color=BLUE, label="bound")
    scale(axes, zip(seconds, bounds))
    finish(axes, axis, "By how much the absolute clock may be off: the time bound", "µs")


def gap_in_bound(axes, report, axis):
    seconds, gaps, bounds = zip(*lines_of(report.ticks, axis))
    axes.fill_between(seconds, [-b for b in bounds], bounds, color=BAND, lw=0, label="bound")
    axes.axhline(0, color=ORANGE, lw=1, label="absolute")
    axes.plot(seconds, gaps, lw=1, color=BLUE, label="uninterrupted")
    scale(axes, [(x, y) for x, gap, bound in zip(seconds, gaps, bounds) for y in (gap, bound, -bound)])
    finish(axes, axis, "The uninterrupted clock, from the absolute one, with its bound", "µs")


def gap(axes, report, axis):
    seconds, gaps, _ = zip(*lines_of(report.ticks, axis))
    axes.axhline(0, color=ORANGE, lw=1, label="absolute")
    axes.plot(seconds, gaps, lw=1, color=BLUE, label="uninterrupted")
    scale(axes, zip(seconds, gaps))
    finish(axes, axis, "The uninterrupted clock, from the absolute one, in its own scale", "µs")


def readings_of(report, *kinds):
    """The readings of these kinds by ticks whose bound says something, each with its tick."""
    found = ((r, report.ticks[r.tick]) for r in report.readings if r.kind in kinds)
    return [(r, tick) for r, tick in found if clock.is_bounded(tick) and (r.kind != "diff" or r.count > 0)]


def taken_off(kind, tick, count):
    """What a kind is less than the clock that it is told from."""
    return {"uptime": tick.boot, "utc": clock.leaps(tick, count) * GRAINS}.get(kind, 0)


def readings(axes, report, axis):
    """How far readings are from the absolute clock. The uptime and UTC are drawn as what they are told from."""
    windups = [axis.second(tick.count) for tick in report.ticks if clock.is_bounded(tick)]
    if len(windups) <= MANY_WINDUPS:
        for second in windups:
            axes.axvline(second, color=GREY, lw=0.5, zorder=0, label="windup" if second == windups[0] else None)
    for kind, marker in MARKERS.items():
        found = readings_of(report, kind)
        off = [micros(r.time + taken_off(kind, tick, r.count) - clock.absolute(tick, r.count)) for r, tick in found]
        if found:
            axes.plot([axis.second(r.count) for r, _ in found], off, marker, ms=5, label=kind)
    told = len(readings_of(report, *MARKERS))
    finish(axes, axis, f"{told} readings, from the absolute clock at their count", "µs")


def intervals(axes, report, axis):
    """By how much the lengths that were read differ from those at the nominal frequency."""
    found = readings_of(report, "diff")
    nominal = GRAINS / report.frequency
    points = [(axis.second(tick.count), (r.time / (r.count * nominal) - 1) * 10**6) for r, tick in found]
    axes.plot(*zip(*points), ".", ms=4, color=GREEN, label="diff")
    scale(axes, points)
    finish(axes, axis, "Intervals that were read, from those at the nominal frequency", "ppm")
