"""`look plot`: a picture of reports of the same stamps, with one time axis."""
import textwrap
from functools import partial

import clock
import rows
from frequency import warning
from journal import Journal
from report import Wrong

try:
    import matplotlib
    matplotlib.use("agg")
    from matplotlib import pyplot
except ImportError:
    raise Wrong("`plot` needs matplotlib, which Debian has as python3-matplotlib") from None

MANY = 10_000  # points
ENDINGS = (".svg", ".png")
STYLE = {"svg.fonttype": "none", "svg.hashsalt": "look", "font.family": "DejaVu Sans", "font.size": 9,
         "axes.spines.top": False, "axes.spines.right": False, "axes.grid": True, "grid.color": "#e6e6e6",
         "legend.frameon": False, "legend.fontsize": 8, "axes.titlesize": 10, "axes.titlelocation": "left"}


def journal_of(report):
    """The ticks of a report from the first time on that is known, or None where none is."""
    try:
        return Journal(report, from_zero=False)
    except Wrong:
        return None


def exchange_counts(report):
    """The count of each accepted exchange, where a report tells it."""
    return [e.count for e in report.estimates] or [tick.update for tick in report.ticks if tick.how in ("take", "jump")]


class Seconds:
    """The time axis: seconds from the first time that is known, at the nominal frequency."""

    def __init__(self, reports, journals):
        first = min(journals, key=lambda journal: journal.counts[0])
        self.origin, self.frequency = first.counts[0], reports[0].frequency
        self.exchanges = next(filter(None, map(exchange_counts, reports)), [])
        if len(self.exchanges) != reports[0].accepted:
            raise Wrong("the reports are of different stamps")
        sets = {s.count for report in reports for s in report.sets}
        sets |= {tick.count for report in reports for tick in report.ticks[2:] if tick.how == "reset"}
        self.sets = [self.second(count) for count in sorted(sets)]
        begin = clock.date(clock.nanos_floor(first.ticks[0].time))
        self.label = f"seconds from {begin[:-len('123456 UTC')]} UTC" if begin.endswith("UTC") else f"seconds from {begin}"

    def second(self, count):
        return (count - self.origin) / self.frequency

    def of_exchange(self, number):
        return self.second(self.exchanges[number])


class Numbers:
    """The axis of a picture of round trips alone, whose report has no counts: the numbers of the exchanges."""

    def __init__(self, report):
        self.sets = [place - 0.5 for place in report.places]
        self.label = "accepted exchange"

    def of_exchange(self, number):
        return number


def axis_of(reports):
    if len({report.accepted for report in reports}) > 1:
        raise Wrong("the reports are of different stamps")
    journals = [journal for journal in map(journal_of, reports) if journal]
    return Seconds(reports, journals) if journals else Numbers(reports[0])


def first_with(reports, lines):
    """The first report that has such lines, or None."""
    return next((report for report in reports if lines(report)), None)


def is_bounded(report):
    return any(map(clock.is_bounded, report.ticks))


def panels(reports, axis):
    """A function for each row that the reports have the lines for. Each is drawn once."""
    told = []
    for lines, draws in ((lambda r: r.bases, [rows.trips]),
                         (lambda r: r.estimates, [rows.frequency_in_bounds, rows.frequency]),
                         (is_bounded, [rows.gap_in_bound, rows.gap]),
                         (lambda r: rows.readings_of(r, *rows.MARKERS), [rows.readings]),
                         (lambda r: rows.readings_of(r, "diff"), [rows.intervals])):
        report = first_with(reports, lines)
        told += [partial(draw, report=report, axis=axis) for draw in draws if report]
    report = first_with(reports, is_bounded) or first_with(reports, lambda r: any(map(clock.is_bounded, r.estimates)))
    if report:
        after_frequency = sum(panel.func in (rows.trips, rows.frequency_in_bounds, rows.frequency) for panel in told)
        told.insert(after_frequency, partial(rows.time_bound, journal=Journal(report, from_zero=False), axis=axis))
    return told


def warn(figure, reports):
    """What is to be said first, on top of the picture."""
    found = [of for report in reports for of in (report.estimates or report.ticks)[-1:]]
    wrong = warning(found, reports[0].frequency)
    if wrong:
        figure.suptitle("\n".join(textwrap.wrap(f"WARNING: {wrong}", 110)), color=rows.RED, fontsize=10, ha="left", x=0.01)


def keep_small(axes):
    """Draws as an image what has so many points that the file would be large."""
    many = any(len(line.get_xdata()) > MANY for line in axes.lines)
    for artist in [*axes.lines, *axes.collections]:
        artist.set_rasterized(many)


def draw(reports, path):
    if len({report.frequency for report in reports}) > 1:
        raise Wrong("the reports are of different counters")
    if not path.endswith(ENDINGS):
        raise Wrong(f"{path} is no name of a picture: it has to end with {' or '.join(ENDINGS)}")
    axis = axis_of(reports)
    told = panels(reports, axis)
    if not told:
        raise Wrong("there is nothing to draw")
    with matplotlib.rc_context(STYLE):
        figure, grid = pyplot.subplots(len(told), figsize=(9, 2.2 * len(told)), sharex=True, squeeze=False, layout="constrained")
        for panel, (axes,) in zip(told, grid):
            panel(axes)
            keep_small(axes)
        grid[-1][0].set_xlabel(axis.label)
        warn(figure, reports)
        figure.savefig(path, dpi=150, metadata={"Date": None} if path.endswith(".svg") else None)
        pyplot.close(figure)
