"""How good the truth is, and what the machine adds to the ways that the proxies make."""
from bisect import bisect_left

from cases import ahead
from clocks import NANOS
from figures import sizes


class Line:
    """The system clock in ns by the counter: the straight line of least squares. It bends where somebody steers the clock."""

    def __init__(self, moments):
        self.count, self.nanos = moments[0].count, moments[0].nanos
        xs, ys = [m.count - self.count for m in moments], [m.nanos - self.nanos for m in moments]
        self.x, self.y = sum(xs) / len(xs), sum(ys) / len(ys)
        self.slope = sum((x - self.x) * (y - self.y) for x, y in zip(xs, ys)) / sum((x - self.x) ** 2 for x in xs)

    def at(self, count):
        return self.nanos + round(self.y + self.slope * (count - self.count - self.x))  # whole: floats have no ns there

    def told(self, moments):
        off = [m.nanos - self.nanos - self.y - self.slope * (m.count - self.count - self.x) for m in moments]
        return {"counter_hz": round(NANOS / self.slope, 3), "off_a_line_us": sizes(off)}


def asking(moments, port):
    """How far the server's own answers are from the truth, in us: that much is the error of asking."""
    answers = [m.answers[port] for m in moments if port in m.answers]
    return sizes([(a.came - a.left + a.sent - a.back) / 2 for a in answers])


def exchanges(path):
    """The four columns of each stamp, the times in ns."""
    with open(path) as file:
        for line in file:
            pieces = line.split()
            if line[0].isdigit() and line.endswith("\n") and len(pieces) > 3:
                yield int(pieces[0]), int(pieces[1].replace(".", "")), int(pieces[2].replace(".", "")), int(pieces[3])


def passed(path):
    """What a proxy passed on, by its way: when it came, how late it was to be, when it left."""
    ways = ([], [])
    with open(path) as file:
        for line in file:
            pieces = line.split()
            if len(pieces) == 5 and line.endswith("\n") and pieces[4] != "0":
                ways[int(pieces[0])].append(tuple(map(int, pieces[2:])))
    return [sorted(way) for way in ways]


def first_from(way, nanos):
    """The first that came then or later, within 20 ms; a µs is given to the stamps."""
    place = bisect_left(way, (nanos - 1000,))
    return way[place] if place < len(way) and way[place][0] - nanos < 20_000_000 else None


def late(ways):
    """By how many us a proxy passed datagrams on later than it was to."""
    return sizes([left - came - planned for way in ways for came, planned, left in way])


def beside_the_proxy(stamps, ways, line, case, start):
    """
    How long the ways of exchanges took outside of the proxy, in us, by the truth: out from its stamp to the proxy and from there to the
    server's, back likewise. Half of what the way out takes longer is an error that no clock can see.
    """
    outs, backs = [], []
    for ta, tb, te, tf in stamps:
        sent, back = line.at(ta), line.at(tf)
        lead = round(ahead(case, start, sent))
        out, home = first_from(ways[0], sent), first_from(ways[1], te - lead)
        if out and home and home[2] < back + 1000:
            outs.append(out[0] - sent + tb - lead - out[2])
            backs.append(home[0] - (te - lead) + back - home[2])
    return {"out": sizes(outs), "back": sizes(backs), "unseen": sizes([(o - b) / 2 for o, b in zip(outs, backs)])}
