"""Tests of `look`: python3 -m unittest, in this folder."""
import contextlib
import io
import math
import os
import re
import subprocess
import sys
import tempfile
import unittest
from datetime import datetime, timedelta
from fractions import Fraction

import cli
import clock
from report import Tick, Wrong, read_report

HERE = os.path.dirname(os.path.abspath(__file__))
DATA = os.path.join(HERE, "testdata")
GRAINS = 2**64


def data(name):
    with open(os.path.join(DATA, name), encoding="ascii") as file:
        return file.read()


def look(words, text=None):
    """Status, output and errors of the command, with the text as its standard input."""
    out, err = io.TextIOWrapper(io.BytesIO(), encoding="utf-8", newline=""), io.StringIO()
    given = io.TextIOWrapper(io.BytesIO((text or "").encode()))
    before, sys.stdin = sys.stdin, given
    try:
        with contextlib.redirect_stdout(out), contextlib.redirect_stderr(err):
            status = cli.main(words)
    finally:
        sys.stdin = before
    out.seek(0)
    return status, out.read(), err.getvalue()


# ---- A replay by hand: the rules of docs/CLOCK.md once more, over the plain words of tick lines ----

def grains(text):
    seconds, rest = text.split("+")
    return int(seconds) * GRAINS + int(rest)


def text_of(time):
    seconds = math.floor(Fraction(time, GRAINS))
    return f"{seconds}+{time - seconds * GRAINS}"


def hand_value(line, kind, count):
    """What a clock reads, by a tick line."""
    w = line.split(" ")
    passed = count - int(w[3])
    if kind in ("abs", "fast"):
        return grains(w[4]) + passed * int(w[11])
    if kind == "diff":
        return count * int(w[11])
    if kind == "utc":
        leaps = int(w[16]) + (int(w[17]) if int(w[15]) < count else 0)
        return grains(w[4]) + passed * int(w[11]) - leaps * GRAINS
    lerp = grains(w[5]) + passed * int(w[6])
    return lerp - grains(w[7]) if kind == "uptime" else lerp


def hand_bound(line, kind, count):
    w = line.split(" ")
    counts = count if kind == "diff" else count - int(w[10])
    drift = math.ceil(Fraction(counts * int(w[11]) * int(w[13]), 10**12))
    return drift if kind == "diff" else int(w[12]) * 18446744074 + drift


def hand_tick(lines, count):
    """The number of the last tick whose count is below this one, and 0 where there is none."""
    found = 0
    for n, line in enumerate(lines):
        if int(line.split(" ")[3]) < count:
            found = n
    return found


def hand_entries(lines, last):
    """Readings of each kind by each tick: where it begins, within it, and where the next one begins."""
    entries = []
    for n, line in enumerate(lines):
        begin = int(line.split(" ")[3])
        end = int(lines[n + 1].split(" ")[3]) if n + 1 < len(lines) else last
        for count in sorted({begin, (2 * begin + end) // 3, end}):
            entries += [(kind, n, count) for kind in ("abs", "mono", "uptime", "utc")]
            entries.append(("back", hand_tick(lines, count), count))
        entries += [("fast", n, begin), ("diff", n, 1 + 7 * n)]
    return [f"{kind} {n} {count} {text_of(hand_value(lines[n], kind, count))} {hand_bound(lines[n], kind, count)}"
            for kind, n, count in entries]


def hand_replay(past_the_end):
    """The text of a report, of one reader that also had to try again, came too late, and asked too early."""
    head, *lines, end = data("ticks.txt").splitlines()
    last = int(lines[-1].split(" ")[3]) + past_the_end
    read = [f"read 0 {k} {entry}" for k, entry in enumerate(hand_entries(lines, last))]
    k = len(read)
    missed = [f"again 0 {k} mono 3 5", f"again 0 {k + 1} back 6 8", f"old 0 {k + 2} 5 900", f"ahead 0 {k + 3} {last + 9} {last}"]
    entries = read + missed
    flags = " back crank utc" if past_the_end else " back utc lane"
    made = [head.replace("ticks freq", "replay freq") + f" readers 1 reads {len(entries)}{flags}"]
    made += data("estimate.txt").splitlines()[1:-1] + lines + entries + [f"{end} entries {len(entries)}"]
    return "\n".join(made) + "\n"


def blocks_of(out):
    """What `at` told, by count and tick."""
    blocks = {}
    for line in out.splitlines():
        found = re.match(r"count (\d+) tick (\d+) ", line)
        if found:
            block = blocks.setdefault((int(found[1]), int(found[2])), {})
        else:
            name, value = line.split(None, 1)
            block[name] = value
    return blocks


class Replay(unittest.TestCase):
    NAMES = {"abs": "absolute", "fast": "absolute", "mono": "uninterrupted", "back": "uninterrupted", "uptime": "uptime",
             "utc": "utc"}

    def every_reading(self, text, least):
        readings = [r for r in read_report(text).readings if r.kind != "diff"]
        counts = sorted({r.count for r in readings})
        status, out, err = look(["at", *map(str, counts)], text)
        self.assertEqual((status, err), (0, ""))
        blocks = blocks_of(out)
        told = [line.split(" ") for line in text.splitlines() if line.startswith("read ")]
        compared = 0
        for _, _, _, kind, tick, count, time, bound in told:
            if kind == "diff":
                continue
            block = blocks[int(count), int(tick)]
            self.assertEqual(block[self.NAMES[kind]].split(" = ")[1], time)
            self.assertEqual(block["bound"].split(" = ")[1], f"{bound} grains")
            compared += 1
        self.assertGreater(compared, least)

    def test_at_gives_what_readers_were_told(self):
        self.every_reading(hand_replay(0), 500)

    def test_at_gives_what_readers_were_told_past_the_last_tick(self):
        self.every_reading(hand_replay(54321), 500)

    def test_at_gives_what_the_program_printed(self):
        self.every_reading(data("replay.txt"), 200)

    def test_a_past_count_is_read_by_the_first_tick_that_is_told(self):
        text = hand_replay(0)
        for reading in read_report(text).readings:
            if reading.kind == "back":
                out = look(["at", str(reading.count)], text)[1]
                self.assertTrue(out.startswith(f"count {reading.count} tick {reading.tick} "))

    def test_the_journal_reaches_as_far_as_the_counter_was_met(self):
        text = hand_replay(0)
        last = read_report(text).ticks[-1].count
        ahead = re.search(r"ahead 0 (\d+) .*\n", text)
        diff = f"read 0 {ahead[1]} diff 71 {last * 2} 0+0 0\n"  # an interval is no count
        for line, furthest in ((ahead[0], last), (diff, last), (f"ahead 0 {ahead[1]} {last + 9} {last + 4}\n", last + 4)):
            changed = text.replace(ahead[0], line)
            out = look(["at", str(furthest), str(furthest + 1)], changed)[1]
            self.assertIn(f"count {furthest} tick 71 take\n", out.replace(", by which a past count is read", ""))
            self.assertTrue(out.endswith(f"count {furthest + 1}: the journal does not reach it, only from 0 to {furthest}\n"))

    def test_summary_counts_all(self):
        out = look(["summary"], hand_replay(0))[1]
        self.assertIn("Ticks         : cold 1, plain 46, take 23, jump 1, reset 1\n", out)
        self.assertRegex(out, r"Reads +: abs (\d+), mono \1, uptime \1, fast 72, diff 72, back \1, utc \1\n")
        self.assertIn("Again         : mono 1, back 1\n", out)
        self.assertIn("Too old       : 1\nAhead         : 1\n", out)


class At(unittest.TestCase):
    def test_dates_bound_the_time_outwards(self):
        last = data("ticks.txt").splitlines()[-2]
        count = int(last.split(" ")[3])
        out = look(["at", str(count)], data("ticks.txt"))[1]
        block = list(blocks_of(out).values())[-1]
        absolute, bound = hand_value(last, "abs", count), hand_bound(last, "abs", count)
        for name, time, rounded in (("absolute", absolute, math.floor), ("earliest", absolute - bound, math.floor),
                                    ("latest", absolute + bound, math.ceil)):
            nanos = rounded(Fraction(time * 10**9, GRAINS))
            day = datetime(1970, 1, 1) + timedelta(seconds=nanos // 10**9)
            self.assertEqual(block[name], f"{day} UTC = {text_of(time)}".replace(" UTC", f".{nanos % 10**9:09d} UTC"))

    def test_nothing_is_said_past_the_journal(self):
        status, out, _ = look(["at", "5", "4611686018427387903"], data("ticks.txt"))
        self.assertEqual(status, 1)
        self.assertIn("count 5 tick 1 reset\n", out)
        self.assertTrue(out.endswith("count 4611686018427387903: the journal does not reach it, only from 0 to 921602732478\n"))

    def test_the_last_tick_tells_what_is_beyond(self):
        last = data("ticks.txt").splitlines()[-2]
        count = int(last.split(" ")[3]) + 10**15
        status, out, err = look(["at", "--beyond", str(count)], data("ticks.txt"))
        self.assertEqual((status, err), (0, ""))
        self.assertTrue(out.startswith(f"count {count} tick 71 take, the last one: the journal does not reach the count\n"))
        block = re.search(r"absolute .* = (.*)\n(?:.*\n){2}.*bound +.* = (\d+) grains", out)
        self.assertEqual(block.groups(), (text_of(hand_value(last, "abs", count)), str(hand_bound(last, "abs", count))))

    def test_counts_from_files(self):
        ticks = os.path.join(DATA, "ticks.txt")
        expected = look(["at", "38402164328", "500000000000"], data("ticks.txt"))
        self.assertEqual(look(["at", "-f", ticks], "38402164328\n 500000000000\n"), expected)
        self.assertEqual(look(["at", "-f", ticks, "--counts", "-", "38402164328"], "500000000000"), expected)
        with tempfile.TemporaryDirectory() as folder:
            path = os.path.join(folder, "counts")
            with open(path, "w", encoding="ascii") as file:
                file.write("500000000000\n")
            self.assertEqual(look(["at", "38402164328", "--counts", path], data("ticks.txt")), expected)
        for words, text in ((["--counts", "-"], ""), (["--counts", "-", "-f", ticks], "5 x"), (["-f", ticks], str(2**62))):
            WrongInput.refused(self, ["at", *words], text)

    def test_no_bound_before_the_first_estimate(self):
        out = look(["at", "5"], data("ticks.txt"))[1]
        self.assertIn("earliest      not bounded", out)

    def test_dates(self):
        self.assertEqual(clock.date(0), "1970-01-01 00:00:00.000000000 UTC")
        self.assertEqual(clock.date(-1), "1969-12-31 23:59:59.999999999 UTC")
        self.assertEqual(clock.date(2**32 * 10**9), "2106-02-07 06:28:16.000000000 UTC")
        self.assertEqual(clock.date(2**45 * 10**9 + 7), "35184372088832 s and 7 ns since 1970")
        self.assertEqual(clock.decimal(Fraction(-1, 3), 3), "-0.333")

    def leaping(self, day, leap):
        """UTC around a leap second at 2^20 Hz and a count of 2^21, the second after this day's time by a clock 37 s ahead."""
        time = (day - datetime(1970, 1, 1)).total_seconds() + 36
        tick = Tick(2, "take", 0, int(time) * GRAINS, 0, 0, 0, "-", 0, 0, GRAINS >> 20, 0, 0, "-", 2 << 20, 37, leap)
        return [clock.utc_date(tick, count)[11:] for count in (2 << 20, (2 << 20) + 1, (3 << 20) - 1, 3 << 20)]

    def test_an_inserted_second_is_the_sixtieth(self):
        last = datetime(2016, 12, 31, 23, 59, 59)
        self.assertEqual(self.leaping(last, 1), ["00:00:00.000000000 UTC", "23:59:60.000000953 UTC", "23:59:60.999999046 UTC",
                                                 "00:00:00.000000000 UTC"])
        self.assertEqual(self.leaping(last, -1), ["00:00:00.000000000 UTC", "00:00:01.000000953 UTC", "00:00:01.999999046 UTC",
                                                  "00:00:02.000000000 UTC"])
        self.assertEqual(self.leaping(last, 0)[1:3], ["00:00:00.000000953 UTC", "00:00:00.999999046 UTC"])

    def test_one_within_a_minute_is_told_once_more(self):
        self.assertEqual(self.leaping(datetime(2016, 12, 31, 12, 0, 7), 1), ["12:00:08.000000000 UTC", "12:00:07.000000953 UTC once more",
                                                                             "12:00:07.999999046 UTC once more", "12:00:08.000000000 UTC"])


class Summary(unittest.TestCase):
    def test_estimates(self):
        out = look(["summary"], data("estimate.txt"))[1]
        last = data("estimate.txt").splitlines()[-2].split(" ")
        self.assertIn(f"At the count  : {last[2]}\n", out)
        self.assertIn(f"Time bound    : {last[5]} ns\n", out)
        hertz = re.search(r"Frequency +: ([0-9.]+) Hz", out)[1]
        self.assertAlmostEqual(float(hertz), GRAINS / int(last[4]), 3)
        self.assertIn("Accepted      : 24 exchanges\nRefused       : 0\nLevel shifts  : 0\n", out)

    def test_ticks_and_round_trips(self):
        out = look(["summary"], data("ticks.txt"))[1]
        last = data("ticks.txt").splitlines()[-2].split(" ")
        ahead = Fraction((grains(last[5]) - grains(last[4])) * 10**9, GRAINS)
        told = re.search(r"Uninterrupted : (-?[0-9.]+) ns ahead", out)[1]
        self.assertLess(abs(Fraction(told) - ahead), Fraction(1, 1000))
        self.assertIn("Ticks         : cold 1, plain 46, take 23", out)
        self.assertIn("Base          : ", look(["summary"], data("rtt.txt"))[1])

    def test_timers(self):
        text = data("ticks.txt")
        head, end = "ticks 2\n", "ticks 72\n"
        self.assertEqual((text.count(head), text.count(end)), (1, 1))
        none = text.replace(head, "ticks 2 timers 0\n").replace(end, "ticks 72 fired 0\n")
        self.assertIn("Timers        : 0 of 0 fired\n", look(["summary"], none)[1])
        self.assertNotIn("Timers", look(["summary"], text)[1])
        two = text.replace(head, "ticks 2 timers 3\n").replace(end, "ticks 72 fired 2\n")
        two = two.replace("\ntick 6 ", "\nfire 5 2 1+0\nfire 5 1 2+0\ntick 6 ")
        self.assertIn("Timers        : 2 of 3 fired\n", look(["summary"], two)[1])
        count = two.splitlines()[-2].split(" ")[3]
        self.assertEqual(look(["at", count], two), look(["at", count], text))
        for old, new in (("fire 5 2", "fire 4 2"), ("fire 5 2", "fire 6 2"), ("fire 5 2", "fire 5 3"), ("fired 2", "fired 3"),
                         (" fired 2", ""), (" timers 3", ""), ("1+0", "1")):
            with self.assertRaises(Wrong, msg=new):
                read_report(two.replace(old, new, 1))

    def test_refusals_by_name(self):
        text = "report estimate freq 1000000000\nrefused 3 overlap\nrefused 5 acausal\nrefused 7 overlap\nend accepted 0 refused 3\n"
        out = look(["summary"], text)[1]
        self.assertIn("Time          : no estimate\n", out)
        self.assertIn("Refused       : 3: overlap 2, acausal 1\n", out)


# A report over a file of version 2: a leap second is to come, and then the clock is set.
SECOND_HEAD = "report {} freq 1000000000{} version 2\n"
SECOND_ESTIMATES = """\
estimate 0 1000100000 1700000000+922337203600000 18446744072 50050 499999999 W 923259540800001 18437520700 18455967444 --- 0 0 0
leap 20000000000 1
estimate 1 17000100000 1700000016+922331527237072 18446744073 100002 6250101 W 1844700733050001 18446628782 18446859367 --- 20000000000 0 1
set 18000000000 1800000000+0
refused 7 before-set
"""
SECOND_TICKS = """\
tick 0 cold 0 0+0 0+0 0 0+0 U 0+0 0 0 0 0 U 0 0 0
tick 1 reset 0 0+0 0+0 18446744072 0+0 U 0+0 0 18446744072 0 0 U 0 0 0
tick 2 jump 1000100000 1700000000+922337203600000 1700000000+922337203600000 18446744072 1699999998+18445821738215503232 W 1700000000+922337203600000 1000100000 18446744072 50050 499999999 W 0 0 0
tick 3 take 17000100000 1700000016+922331527237072 1700000016+922309850774144 18446744074 1699999998+18445821738215503232 W 1700000016+922331527237072 17000100000 18446744073 100002 6250101 W 20000000000 0 1
tick 4 reset 18000000000 1800000000+0 1800000000+0 18446744072 1800000000+0 U 1800000000+0 18000000000 18446744072 0 0 U 0 0 0
"""
SECOND = {
    "estimate": SECOND_HEAD.format("estimate", "") + SECOND_ESTIMATES + "end accepted 2 refused 1\n",
    "ticks": SECOND_HEAD.format("ticks", " ticks 0") + SECOND_TICKS + "end accepted 2 refused 1 ticks 5\n",
    "rtt": SECOND_HEAD.format("rtt", "") + "base 0 100000 100000 0 0\nset 18000000000 1800000000+0\nend accepted 1 refused 0\n",
    "replay": SECOND_HEAD.format("replay", " ticks 0 readers 0 reads 0 back") + SECOND_ESTIMATES + SECOND_TICKS
    + "end accepted 2 refused 1 ticks 5 entries 0\n",
}


class SecondVersion(unittest.TestCase):
    def test_summary(self):
        out = look(["summary"], SECOND["estimate"])[1]
        self.assertIn("Leap seconds  : none so far, one more is inserted behind the count 20000000000\n", out)
        self.assertIn("Sets          : 1, the last at the count 18000000000 to 2027-01-15 08:00:00.000000000 UTC\n", out)
        self.assertIn("Refused       : 1: before-set 1\n", out)
        past = SECOND["estimate"].replace("20000000000 0 1", "0 -1 0")
        self.assertIn("Leap seconds  : -1 so far\n", look(["summary"], past)[1])
        self.assertIn("Sets          : 0\n", look(["summary"], re.sub("set .*\n", "", SECOND["rtt"], count=1))[1])
        out = look(["summary"], SECOND["ticks"])[1]
        self.assertIn("Ticks         : cold 1, take 1, jump 1, reset 2\n", out)
        self.assertIn("Leap seconds  : none so far\n", out)

    def test_at(self):
        block = look(["at", "18000000000"], SECOND["ticks"])[1]
        self.assertIn("count 18000000000 tick 4 reset\n", block)
        self.assertIn("earliest      not bounded", block)

    def test_the_first_version_has_none_of_it(self):
        for name in ("estimate", "rtt", "replay"):
            with self.assertRaises(Wrong):
                read_report(SECOND[name].replace(" version 2", ""))
        for old, new in (("20000000000 0 1", "20000000000 0"), ("set 18", "set 8"), ("leap 20000000000 1", "leap 20000000000 2"),
                         (" version 2", " version 3"), (" version 2", " version 1"), ("before-set", "after-set")):
            with self.assertRaises(Wrong, msg=new):
                read_report(SECOND["estimate"].replace(old, new, 1))


class WrongInput(unittest.TestCase):
    def refused(self, words, text):
        status, out, err = look(words, text)
        self.assertEqual((status, out), (1, ""))
        self.assertRegex(err, r"\Alook: [^\n]+\n\Z")

    def test_each_line_is_needed(self):
        lines = hand_replay(0).splitlines(keepends=True)
        for n in [*range(0, len(lines), 17), len(lines) - 1]:
            with self.assertRaises(Wrong):
                read_report("".join(lines[:n] + lines[n + 1:]))

    def test_each_piece_is_judged(self):
        for name in ("estimate.txt", "ticks.txt", "rtt.txt"):
            lines = data(name).splitlines()
            for n in (0, 1, 7, len(lines) - 1):
                pieces = lines[n].split(" ")
                for i in range(len(pieces)):
                    for bad in ("", "x", "01", "-", "1+18446744073709551616", "9" * 5000):
                        changed = pieces[:i] + [bad] + pieces[i + 1:]
                        if bad == "-" and pieces[i] in ("U", "W", "-"):
                            continue
                        with self.assertRaises(Wrong, msg=" ".join(changed)[:200]):
                            read_report("\n".join(lines[:n] + [" ".join(changed)] + lines[n + 1:]) + "\n")

    def test_counts_never_fall_and_ticks_are_there(self):
        for old, new in ((r"(tick 60 plain) \d+", r"\1 0"), (r"(read 0 9 abs) \d+", r"\1 72"), (r"(estimate 5) \d+", r"\1 0")):
            changed, times = re.subn(old, new, re.sub("read 0 9 [a-z]+", "read 0 9 abs", hand_replay(0)))
            self.assertEqual(times, 1)
            self.refused(["summary"], changed)

    def test_no_report_is_cut_off(self):
        text = data("ticks.txt")
        for length in range(0, len(text), 101):
            self.refused(["summary"], text[:length])

    def test_a_fault_is_told(self):
        self.refused(["summary"], "fault input 3 digits\n")
        self.assertIn("fault input 3 digits", look(["summary"], "fault input 3 digits\n")[2])

    def test_words(self):
        text = data("ticks.txt")
        for words in ([], ["tell"], ["at"], ["at", "x"], ["at", "-1"], ["at", str(2**62)], ["at", "1" * 5000], ["plot"],
                      ["summary", "-f", os.path.join(DATA, "none")], ["summary", "-f", DATA]):
            self.refused(words, text)
        self.refused(["at", "5"], data("estimate.txt"))

    def test_the_program_itself(self):
        run = subprocess.run([sys.executable, os.path.join(HERE, "look"), "summary"], input=b"\xff\n", capture_output=True)
        self.assertEqual((run.returncode, run.stdout), (1, b""))
        self.assertEqual(len(run.stderr.splitlines()), 1)


if __name__ == "__main__":
    unittest.main()
