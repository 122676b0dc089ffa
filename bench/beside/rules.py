"""The daemon's rules at work in a run: how often each acted, and what its bounds are made of. They stand in docs/DAEMON.md."""
from bisect import bisect_right

from clocks import nanos_of
from figures import quantile, sizes

# How much a stamp counts, by how many eighths of the scale its round trip is above the base.
WEIGHTS = (65536, 64520, 61565, 56939, 51039, 44344, 37341, 30477, 24109, 18485, 13737, 9894, 6907, 4674, 3065, 1948, 1200, 717, 415,
           233, 127, 67, 34, 17, 8)
STAMPS = 32  # of the mean, and of a level shift


def scale_of(frequency):
    return max(1, 60 * frequency // 10**6)


def weights(bases, counts, i, scale):
    """The weights that the last stamps have at stamp i, each with its round trip."""
    base = bases[i].base
    for k in range(max(bases[i].start, i - STAMPS + 1), i + 1):
        row = 8 * (bases[k].trip - base + ((counts[i] - counts[k]) >> 23)) // scale
        yield WEIGHTS[row] if row < len(WEIGHTS) else 0, bases[k].trip


def parts(trips, estimates, frequency):
    """Of each estimate that is a mean: how many stamps count in it, and what of its bound the round trips make and the rate, in us."""
    counts, scale = [e.count for e in estimates], scale_of(frequency)
    for i, e in enumerate(estimates):
        told = list(weights(trips, counts, i, scale))
        total = sum(weight for weight, _ in told)
        if total == 0 or "P" in e.flags:
            continue
        trip = nanos_of(sum(weight * trip for weight, trip in told) * e.period / total / 2) / 1000
        yield i, sum(weight > 0 for weight, _ in told), trip, e.error / 1000 - trip


def middle(values):
    return round(quantile(values, 0.5), 1) if values else None


def behind_a_shift(readings, moments, estimates):
    """The errors of the readings whose newest estimate is among the first 32 stamps behind a level shift."""
    counts, shifts = [e.count for e in estimates], [i for i, e in enumerate(estimates) if "S" in e.flags]
    near = {i for shift in shifts for i in range(shift, shift + STAMPS)}
    errors = [r.error for r, truth in zip(readings, moments) if bisect_right(counts, truth.count) - 1 in near]
    return {"readings": len(errors), **(sizes(errors) if errors else {})}


def at_work(radclock, readings, moments):
    """All of it between the first and the last of these moments."""
    estimates, frequency = radclock.estimates.estimates, radclock.estimates.frequency
    inside = [i for i, e in enumerate(estimates) if moments[0].count <= e.count <= moments[-1].count]
    if not inside:
        return {"estimates": 0}
    made = [p for p in parts(radclock.trips.bases, estimates, frequency) if inside[0] <= p[0] <= inside[-1]]
    acted = {name: sum(flag in estimates[i].flags for i in inside)
             for name, flag in (("level shifts", "S"), ("local rate", "L"), ("predictions", "P"))}
    rate = {of: middle([r for i, _, _, r in made if ("L" in estimates[i].flags) == is_local])
            for of, is_local in (("local", True), ("global", False))}
    return {"estimates": len(inside), "refused": len(radclock.estimates.refused), **acted,
            "stamps that count": middle([n for _, n, _, _ in made]), "least round trip_us": least(radclock, inside),
            "bound by round trips_us": middle([t for _, _, t, _ in made]), "bound by the rate_us": rate,
            "behind a shift_us": behind_a_shift(readings, moments, estimates)}


def least(radclock, inside):
    bases, frequency = radclock.trips.bases, radclock.estimates.frequency
    return round(min(bases[i].trip for i in inside) * 1e6 / frequency, 1)
