"""Tests of `look stamp`, and of the warning of a wrong frequency."""
import math
import os
import re
import tempfile
import unittest
from datetime import datetime, timedelta
from fractions import Fraction

from test_look import DATA, GRAINS, SECOND, data, grains, hand_bound, hand_replay, hand_value, look, text_of

TICKS = os.path.join(DATA, "ticks.txt")
LINES = data("ticks.txt").splitlines()[1:-1]
LAST = int(LINES[-1].split(" ")[3])
FIRST = int(LINES[2].split(" ")[3])  # of the first tick that knows the time


def newest(lines, count):
    """The number of the last tick whose count is not above this one."""
    return max(n for n, line in enumerate(lines) if int(line.split(" ")[3]) <= count)


def stamped(words, trace, report=TICKS):
    return look(["stamp", "-f", report, *words], trace)


def exact_words(line, count, marks):
    """What `--exact` puts for a count, by a tick line."""
    time, bound = hand_value(line, "abs", count), hand_bound(line, "abs", count)
    return f"{text_of(time)} {text_of(time - bound)} {text_of(time + bound)} {marks}"


def date_of(time, rounded):
    nanos = rounded(Fraction(time * 10**9, GRAINS))
    return f"{datetime(1970, 1, 1) + timedelta(seconds=nanos // 10**9):%Y-%m-%dT%H:%M:%S}.{nanos % 10**9:09d}Z"


class Stamp(unittest.TestCase):
    def every_reading(self, text, least):
        """
        Stamps a trace of the readings of a report, and compares each with the time and the bound that it has there. Left out are
        those by the tick before at the very count of one that takes or resets, but at 0, where both stand at zero; how many of them read the absolute clock is answered.
        """
        lines = text.splitlines()
        ticks = [line for line in lines if line.startswith("tick ")]
        read = [line.split(" ") for line in lines if re.match("read .* (abs|utc|fast) ", line)]
        current = {w[5]: newest(ticks, int(w[5])) for w in read}
        told = [w for w in read if w[3] != "utc" and (int(w[4]) == current[w[5]] or w[5] == "0" or " plain " in ticks[current[w[5]]])]
        trace = "".join(f"{' '.join(w[:3])}\t{w[5]}  {w[3]}\n" for w in told)
        with tempfile.TemporaryDirectory() as folder:
            path = os.path.join(folder, "report")
            with open(path, "w", encoding="ascii") as file:
                file.write(text)
            status, out, err = stamped(["--exact", "--from-zero", "-c", "4"], trace, path)
        self.assertEqual((status, err), (0, ""))
        for w, line in zip(told, out.splitlines(), strict=True):
            tick = ticks[current[w[5]]].split(" ")
            bounds = [text_of(grains(w[6]) + sign * int(w[7])) for sign in (-1, 1)] if "U" not in tick[14] else ["-", "-"]
            self.assertEqual(line, f"{' '.join(w[:3])}\t{w[6]} {' '.join(bounds)} {tick[8]}  {w[3]}")
        self.assertGreater(len(told), least)
        return sum(w[3] == "abs" for w in read) - sum(w[3] == "abs" for w in told)

    def test_every_reading_that_is_told_by_its_tick(self):
        taken = [line for line in LINES[2:] if " plain " not in line]
        self.assertEqual(self.every_reading(hand_replay(54321), 200), len(taken))

    def test_every_reading_that_the_program_printed(self):
        self.assertEqual(len(re.findall("read .* abs ", data("replay.txt"))), 42)
        self.assertEqual(self.every_reading(data("replay.txt"), 40), 1)

    def test_dates_bound_the_time_outwards(self):
        count = (FIRST + LAST) // 2
        line = LINES[newest(LINES, count)]
        time, bound = hand_value(line, "abs", count), hand_bound(line, "abs", count)
        words = " ".join([date_of(time, math.floor), date_of(time - bound, math.floor), date_of(time + bound, math.ceil), "W"])
        self.assertEqual(stamped([], f"a {count};\n"), (0, f"a {words};\n", ""))

    def test_the_ends_of_each_tick(self):
        """A count is told by the last tick that is not above it, also where the trace goes up and down over the ticks."""
        counts = [int(line.split(" ")[3]) + more for line in LINES[3:] for more in (1, 0, -1)]
        counts = [count for count in counts if count <= LAST]
        out = stamped(["--exact"], "".join(f"{count}\n" for count in counts))[1].splitlines()
        for count, told in zip(counts, out, strict=True):
            line = LINES[newest(LINES, count)]
            self.assertEqual(told, exact_words(line, count, line.split(" ")[8]))

    def test_counts_before_and_beyond(self):
        trace = f"{FIRST - 1} x\n{LAST} y\n{LAST + 1} z\n"
        status, out, err = stamped(["--exact"], trace)
        inside = exact_words(LINES[-1], LAST, "-")
        self.assertEqual((status, out), (1, f"{FIRST - 1} x\n{inside} y\n{LAST + 1} z\n"))
        self.assertEqual(err, "look: counts that are left as they are: 1 before the first time that is known, 1 beyond the journal, "
                              f"which goes from {FIRST} to {LAST}\n")
        beyond = exact_words(LINES[-1], LAST + 1, "B")
        self.assertEqual(stamped(["--exact", "--beyond"], trace)[:2], (1, f"{FIRST - 1} x\n{inside} y\n{beyond} z\n"))
        zero = text_of(hand_value(LINES[1], "abs", FIRST - 1))
        self.assertEqual(stamped(["--exact", "--from-zero"], trace)[:2], (1, f"{zero} - - U x\n{inside} y\n{LAST + 1} z\n"))
        self.assertEqual(stamped(["--exact", "--from-zero", "--beyond"], trace), (0, f"{zero} - - U x\n{inside} y\n{beyond} z\n", ""))

    def test_the_marks_are_those_of_the_clock(self):
        """A clock whose estimate is old has the mark U, and its bound holds all the same."""
        last = LINES[-1].split(" ")
        text = data("ticks.txt").replace(LINES[-1], " ".join(last[:8] + ["UW"] + last[9:]))
        self.assertEqual(look(["stamp", "--exact"], f"{text}{LAST}\n")[1], exact_words(LINES[-1], LAST, "UW") + "\n")

    def test_the_bound_grows_beyond(self):
        def width(count):
            early, late = stamped(["--exact", "--beyond"], f"{count}\n")[1].split(" ")[1:3]
            return grains(late) - grains(early)

        self.assertEqual(width(LAST + 10**15), 2 * hand_bound(LINES[-1], "abs", LAST + 10**15))
        self.assertGreater(width(LAST + 10**15), width(LAST + 1))

    def test_columns(self):
        words = exact_words(LINES[newest(LINES, FIRST + 5)], FIRST + 5, "W")
        for options, trace, at in ((["-c", "2"], "7 {}\tx", 0), (["-c", "1"], " {} 9", 0), ([], "eth0: ts={}, 5", 0), ([], "1.5 -3 [{}]", 0),
                                   ([], "ab12 0x{0:x} {0}", 1), ([], "{}", 0)):
            count = FIRST + 5
            given = trace.format(count)
            self.assertEqual(stamped(["--exact", *options], given + "\r\n"), (0, words.join(given.rsplit(str(count), 1)) + "\r\n", ""), given)
        for options, trace in ((["-c", "3"], f"{FIRST + 5} 1 \n# \n"), (["-c", "1"], f"x{FIRST + 5}\n"), ([], f"é {2**62}\n")):
            self.assertEqual(stamped(options, trace), (1, trace, "look: no line has a count there\n"))
        for bad in ("0", "1001", "x", "-1"):
            self.assertEqual(stamped(["-c", bad], "5\n")[:2], (1, ""))

    def test_the_report_may_stand_before_the_trace(self):
        trace = f"{FIRST + 5}\nend of it\n"
        self.assertEqual(look(["stamp"], data("ticks.txt") + trace), stamped([], trace))
        self.assertEqual(look(["stamp"], trace)[:2], (1, ""))

    def test_a_report_of_estimates_tells_the_same(self):
        trace = "".join(f"{count}\n" for count in range(FIRST + 1, LAST, 10**9))
        by_ticks, by_estimates = (stamped(["--exact"], trace, os.path.join(DATA, name)) for name in ("ticks.txt", "estimate.txt"))
        self.assertEqual(by_ticks, by_estimates)
        self.assertEqual(stamped([], trace, os.path.join(DATA, "rtt.txt"))[:2], (1, ""))

    def test_sets(self):
        trace = "1000100001\n17000100001\n18000000000\n18000000001\n"
        out = look(["stamp", "--exact", "--beyond"], SECOND["ticks"] + trace)
        self.assertEqual(look(["stamp", "--exact", "--beyond"], SECOND["estimate"] + trace), out)
        self.assertEqual(out[1].splitlines()[-1], f"{text_of(1800000000 * GRAINS + 18446744072)} - - UB")

    def test_no_report(self):
        for text in ("", "5\n", "report estimate freq 1000000000\nend accepted 0 refused 0\n5\n", "fault input 1 head\n"):
            status, out, err = look(["stamp"], text)
            self.assertEqual((status, out), (1, ""))
            self.assertRegex(err, r"\Alook: [^\n]+\n\Z")


def wrong_report(name, way):
    """A report as the program makes it of a counter that is more than 500 ppm off: all periods are at the limit, without width."""
    nominal = 2**63 // 2400000000 * 2
    limit = nominal + way * (nominal // 2000)
    place = {"estimate": (4, 6, (9, 10)), "tick": (11, 13, ())}
    lines = []
    for line in data(name).splitlines():
        w = line.split(" ")
        period, rate, bounds = place.get(w[0], (0, 0, ()))
        if period and "U" not in w:
            w[period], w[rate] = str(limit), "0"
            for bound in bounds:
                w[bound] = str(limit)
        lines.append(" ".join(w))
    return "\n".join(lines) + "\n"


class WrongFrequency(unittest.TestCase):
    def test_it_is_told_first(self):
        for way, word in ((1, "slower"), (-1, "faster")):
            for name in ("ticks.txt", "estimate.txt"):
                text = wrong_report(name, way)
                out = look(["summary"], text)[1]
                self.assertRegex(out, rf"\AWARNING +: the frequency 2400000000 Hz that the stamp file gives is wrong: .* is {word} by 500 ppm")
                status, out, err = look(["stamp"], f"{text}{LAST}\n")
                self.assertRegex(err, r"\Alook: WARNING: the frequency 2400000000 Hz [^\n]+\n\Z")
                self.assertRegex(out, r" F\n\Z")
                self.assertEqual(status, 0)
            out = look(["at", str(LAST)], wrong_report("ticks.txt", way))[1]
            self.assertRegex(out, r"\AWARNING: the frequency 2400000000 Hz [^\n]+\ncount ")

    def test_one_sign_of_it_is_enough(self):
        last = data("estimate.txt").splitlines()[-2].split(" ")
        for place, value in ((4, "7682300293"), (4, "7689986435"), (6, "0"), (9, last[10])):
            changed = last[:place] + [value] + last[place + 1:]
            text = data("estimate.txt").replace(" ".join(last), " ".join(changed))
            sure = "may be wrong" if place == 4 else "is wrong"
            self.assertRegex(look(["summary"], text)[1], rf"\AWARNING .* gives {sure}[:,]", (place, value))

    def test_else_nothing_is_told(self):
        for name in ("ticks.txt", "estimate.txt", "replay.txt", "rtt.txt"):
            self.assertNotIn("WARNING", look(["summary"], data(name))[1])
        self.assertNotIn("WARNING", look(["at", "5", str(LAST)], data("ticks.txt"))[1])
        self.assertNotIn("WARNING", look(["summary"], SECOND["ticks"])[1])
        self.assertEqual(stamped([], f"{LAST}\n")[2], "")


if __name__ == "__main__":
    unittest.main()
