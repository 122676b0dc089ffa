"""How far a counter is from its nominal frequency, and the warning where that is farther than the daemon believes."""
from fractions import Fraction

from report import GRAINS

LIMIT = 500  # parts in a million


def parts_in_million(period, frequency):
    """How far a counter of this period is from its nominal frequency. Above 0 it is fast."""
    return (Fraction(GRAINS, period) / frequency - 1) * 10**6


def limits(frequency):
    """The least and the greatest period that are believed, by docs/DAEMON.md."""
    nominal = GRAINS // 2 // frequency * 2
    return nominal - nominal // 2000, nominal + nominal // 2000


def has_no_width(of):
    """
    Whether the bounds of a period are one number. A period beyond the limit is replaced by the limit, and so are its
    bounds, which tell nothing then. A clock that was only set has no bounds yet.
    """
    low, high = getattr(of, "low", 0), getattr(of, "high", 1)  # which ticks do not have
    return (of.rate_error == 0 or low == high) and "U" not in of.marks


def is_at_limit(of, frequency):
    """Whether the period of an estimate or a tick is at the edge of what is believed."""
    return of.period in limits(frequency) or has_no_width(of)


def warning(found, frequency):
    """What is to be said first of estimates or ticks, in one line, or None. The last one at the limit decides."""
    at_limit = [of for of in found if is_at_limit(of, frequency)]
    if not at_limit:
        return None
    last = at_limit[-1]
    sure = "is wrong" if has_no_width(last) else "may be wrong, or the exchanges are too few to tell"
    way = "slower" if parts_in_million(last.period, frequency) < 0 else "faster"
    return (f"the frequency {frequency} Hz that the stamp file gives {sure}: by the exchanges the counter is {way} by {LIMIT} ppm, "
            "the most that is believed, or by more. Trust neither the times nor their bounds.")
