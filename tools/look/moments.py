"""`look at`: what the clocks read at counts, exactly."""
import clock
from frequency import warning
from journal import Journal
from report import Wrong


def time_text(grains, nanos):
    return f"{clock.date(nanos)} = {clock.exact(grains)}"


def tick_lines(tick, count):
    """What is read at a count by one tick. The bound is rounded outwards."""
    absolute, bound = clock.absolute(tick, count), clock.time_bound(tick, count)
    lerp, up = clock.uninterrupted(tick, count), clock.uptime(tick, count)
    early, late = absolute - bound, absolute + bound
    yield "absolute", time_text(absolute, clock.nanos_floor(absolute))
    if clock.is_bounded(tick):
        yield "earliest", time_text(early, clock.nanos_floor(early))
        yield "latest", time_text(late, clock.nanos_ceil(late))
    else:
        yield "earliest", "not bounded: no estimate with a bound is known"
        yield "latest", "not bounded"
    yield "bound", f"{clock.nanos_ceil(bound)} ns = {bound} grains"
    yield "uninterrupted", time_text(lerp, clock.nanos_floor(lerp))
    yield "utc", f"{clock.utc_date(tick, count)} = {clock.exact(clock.utc(tick, count))}"
    seconds, nanos = divmod(clock.nanos_floor(up), clock.NANOS)
    yield "uptime", f"{seconds}.{nanos:09d} s = {clock.exact(up)}"
    yield "marks", f"clock {tick.clock_marks} estimate {tick.marks}"


def how_told(tick, number, ticks, is_beyond):
    """Behind the number of a tick: how it came about, and what is special of it at the count."""
    if is_beyond:
        return f"{tick.how}, the last one: the journal does not reach the count"
    return tick.how + (", by which a past count is read" if len(ticks) > 1 and number == 0 else "")


def lines_at(journal, count):
    """What the ticks that are current at a count tell of it."""
    ticks = journal.current(count)
    for number, tick in enumerate(ticks):
        yield f"count {count} tick {tick.number} {how_told(tick, number, ticks, journal.is_beyond(count))}"
        for name, value in tick_lines(tick, count):
            yield f"  {name:<13} {value}"


def is_reached(journal, count, beyond):
    return not journal.is_before(count) and (beyond or not journal.is_beyond(count))


def lines(report, counts, beyond=False):
    """The lines of all counts, in turn, and whether all are reached. Where the frequency is wrong, that is the first line."""
    if not report.ticks:
        raise Wrong("no ticks: `at` needs a report of ticks or replay")
    journal = Journal(report)
    reached = [count for count in counts if is_reached(journal, count, beyond)]
    wrong = warning((tick for count in reached for tick in journal.current(count)), report.frequency)
    told = [f"WARNING: {wrong}"] if wrong else []
    for count in counts:
        if is_reached(journal, count, beyond):
            told += lines_at(journal, count)
        else:
            told.append(f"count {count}: the journal does not reach it, only from {journal.counts[0]} to {journal.reach}")
    return told, len(reached) == len(counts)
