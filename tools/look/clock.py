"""What the clocks of a journal read, in whole numbers, by the rules of docs/CLOCK.md; and how times are written."""
from datetime import datetime, timedelta, timezone

from report import GRAINS

NANOS = 10**9
GRAINS_PER_NANO = 18_446_744_074  # rounded up, as the bound takes them
EPOCH = datetime(1970, 1, 1, tzinfo=timezone.utc)
SECONDS_OF_DATES = range(-62_135_596_800, 253_402_300_800)  # the years 1 to 9999


def div_ceil(a, b):
    return -(-a // b)


def absolute(tick, count):
    return tick.time + (count - tick.count) * tick.period


def uninterrupted(tick, count):
    return tick.lerp + (count - tick.count) * tick.slope


def uptime(tick, count):
    return uninterrupted(tick, count) - tick.boot


def leaps(tick, count):
    """The leap seconds that hold at a count: a due one only behind its own count."""
    return tick.total + (tick.leap if tick.due < count else 0)


def utc(tick, count):
    return absolute(tick, count) - leaps(tick, count) * GRAINS


def is_inserted(tick, count):
    """Whether UTC reads a second anew: behind the count of an inserted one, until it is where it was at that count."""
    return tick.leap == 1 and tick.due < count and absolute(tick, count) < absolute(tick, tick.due) + GRAINS


def bound_by(tick):
    """The bound of the absolute clock by a tick, as a function of the count."""
    error, growth, update = tick.error * GRAINS_PER_NANO, tick.period * tick.rate_error, tick.update
    return lambda count: error - ((update - count) * growth // 10**12 if count > update else 0)  # rounded up


def time_bound(tick, count):
    return bound_by(tick)(count)


def is_bounded(tick):
    """Whether the bound says anything: not before the first estimate, nor where its error had no room."""
    return "U" not in tick.marks


def exact(grains):
    """As the report writes times."""
    seconds, rest = divmod(grains, GRAINS)
    return f"{seconds}+{rest}"


def nanos_floor(grains):
    return grains * NANOS >> 64


def nanos_ceil(grains):
    return -(-grains * NANOS >> 64)


def day_of(seconds, between=" "):
    """The day and time of a second since 1970, or None where no calendar has it."""
    if seconds not in SECONDS_OF_DATES:
        return None
    return (EPOCH + timedelta(seconds=seconds)).strftime(f"%Y-%m-%d{between}%H:%M:%S").rjust(19, "0")


def date(nanos):
    """Nanoseconds since 1970 as a date, or as seconds where no calendar has them."""
    seconds, rest = divmod(nanos, NANOS)
    day = day_of(seconds)
    return f"{day}.{rest:09d} UTC" if day else f"{seconds} s and {rest} ns since 1970"


def utc_date(tick, count):
    """The date of UTC at a count. The inserted second is the sixtieth of its minute, where it ends one."""
    day = date(nanos_floor(utc(tick, count)))
    if not is_inserted(tick, count):
        return day
    return day.replace(":59.", ":60.") if ":59." in day else f"{day} once more"


def decimal(value, digits):
    """A fraction with so many digits behind the point, rounded to the nearest."""
    scaled = (value.numerator * 10**digits * 2 + value.denominator) // (2 * value.denominator)
    sign = "-" if scaled < 0 else ""
    whole, rest = divmod(abs(scaled), 10**digits)
    return f"{sign}{whole}.{rest:0{digits}d}"
