"""The figures of a run: of each case and clock how far it was from the truth."""
from clocks import NANOS, nanos_of

SPANS = (1, 10, 60)  # s, of differences
LEAST_BOUND = 100  # ns: no error of a difference is told below it, since the truth is no better


def quantile(values, part):
    """The value that such a part of the values is at or below."""
    ordered = sorted(values)
    return ordered[min(len(ordered) - 1, int(part * len(ordered)))]


def micros(nanos):
    return round(nanos / 1000, 3)


def sizes(errors):
    """Median, 95 %, 99 % and the greatest of the errors without their sign, and the median with it, in us."""
    plain = [abs(e) for e in errors]
    names = (("median", 0.5), ("95%", 0.95), ("99%", 0.99), ("greatest", 1))
    return {**{name: micros(quantile(plain, part)) for name, part in names}, "signed median": micros(quantile(errors, 0.5))}


def within(errors, bounds):
    """How a bound did: its size in us, how many errors were outside of it, and the greatest part of it that one used."""
    used = [abs(e) / b for e, b in zip(errors, bounds)]
    return {"median": micros(quantile(bounds, 0.5)), "95%": micros(quantile(bounds, 0.95)), "outside": sum(u > 1 for u in used),
            "most used": round(max(used), 3)}


def times(readings):
    errors, bounds = [r.error for r in readings], [r.bound for r in readings]
    return {"error_us": sizes(errors), "bound_us": within(errors, bounds)}


def pairs(series, span):
    """The places of two moments that are so many seconds apart, as nearly as there are."""
    seconds = [round(truth.nanos / NANOS) for truth in series.moments]
    place = {second: i for i, second in enumerate(seconds)}
    return [(place[second - span], i) for i, second in enumerate(seconds) if second - span in place]


def true_length(series, i, j):
    """How long it was between two moments by the server, in ns."""
    return series.moments[j].nanos - series.moments[i].nanos + series.leads[j] - series.leads[i]


def differences(series, span):
    """The errors of each kind of difference in ns, and radclock's bounds."""
    kinds = {kind: [] for kind in ("radclock", "plain", "radclock absolute", "chrony", "chrony frequency")}
    bounds = []
    for i, j in pairs(series, span):
        length = true_length(series, i, j)
        counts = series.moments[j].count - series.moments[i].count
        for client in ("radclock", "plain"):
            kinds[client].append(nanos_of(counts * series.readings[client][j].span) - length)
        bounds.append(nanos_of(counts * series.readings["radclock"][j].span) * series.readings["radclock"][j].rate_bound * 1e-6)
        for kind, client in (("radclock absolute", "radclock"), ("chrony", "chrony")):
            kinds[kind].append(series.readings[client][j].error - series.readings[client][i].error)
        rate = series.readings["chrony"][j].rate
        if rate is not None:
            elapsed = series.moments[j].nanos - series.moments[i].nanos
            kinds["chrony frequency"].append(elapsed * (1 + rate * 1e-6) - length)
    return kinds, [max(bound, LEAST_BOUND) for bound in bounds]


def difference_figures(series, span):
    kinds, bounds = differences(series, span)
    if not bounds:
        return None
    told = {kind: sizes(errors) for kind, errors in kinds.items() if errors}
    told["radclock"]["bound"] = within(kinds["radclock"], bounds)
    return {"pairs": len(bounds), **told}


def case_figures(series, skip):
    """The figures behind the first seconds, which are left out."""
    begin = series.moments[0].nanos + skip * NANOS if series.moments else 0
    kept = [i for i, truth in enumerate(series.moments) if truth.nanos >= begin]
    if not kept:
        return {"readings": 0}
    series.moments, series.leads = ([values[i] for i in kept] for values in (series.moments, series.leads))
    series.readings = {client: [values[i] for i in kept] for client, values in series.readings.items()}
    return {"readings": len(kept), "time": {client: times(readings) for client, readings in series.readings.items()},
            "differences_us": {str(span): difference_figures(series, span) for span in SPANS}}
