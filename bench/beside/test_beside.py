"""Tests of the bench beside chronyd. They want what it wants: root, chronyd, cc, setpriv."""
import csv
import json
import os
import signal
import subprocess
import sys
import tempfile
import time
import unittest
from types import SimpleNamespace

import cases
import changed
import children
import figures
import machine
import needs
import rules
import tables
from clocks import Answer, Chrony, Reading, Truth, read_probe
from truth import Line, beside_the_proxy, late

HERE = os.path.dirname(os.path.abspath(__file__))
GRAINS = 1 << 64
# What stands for radclock where it is not built: one estimate, at a count before all of the run.
STAND_IN = """#!/usr/bin/env python3
import sys
lines = sys.stdin.read().split("\\n")
freq = int(lines[1].split()[1])
stamps = [line.split() for line in lines if line and line[0].isdigit()]
count, period = int(stamps[0][3]), 2**63 // freq * 2
seconds, nanos = map(int, stamps[0][2].split("."))
time = f"{seconds}+{nanos * 2**64 // 10**9}"
if sys.argv[1] == "ticks":
    print(f"report ticks freq {freq} ticks 0 version 2")
    print(f"tick 0 cold 0 0+0 0+0 0 0+0 U 0+0 0 0 0 0 U 0 0 0")
    print(f"tick 1 reset 0 0+0 0+0 {period} 0+0 U 0+0 0 {period} 0 0 U 0 0 0")
    print(f"tick 2 jump {count} {time} {time} {period} 0+0 - {time} {count} {period} 2000000 3000000 - 0 0 0")
    print(f"end accepted 1 refused 0 ticks 3")
elif sys.argv[1] == "rtt":
    print(f"report rtt freq {freq} version 2")
    print(f"base 0 {int(stamps[0][3]) - int(stamps[0][0])} {int(stamps[0][3]) - int(stamps[0][0])} 0 0")
    print(f"end accepted 1 refused 0")
else:
    print(f"report estimate freq {freq} version 2")
    print(f"estimate 0 {count} {time} {period} 2000000 3000000 - 1 {period} {period + 1} --- 0 0 0")
    print(f"end accepted 1 refused 0")
"""


def in_session(session):
    """The processes of a session, but for its leader's zombies."""
    found = []
    for name in filter(str.isdigit, os.listdir("/proc")):
        try:
            with open(f"/proc/{name}/stat") as file:
                state, _, _, its = file.read().rsplit(")", 1)[1].split()[:4]
        except (FileNotFoundError, ProcessLookupError):
            continue
        if int(its) == session and state != "Z":
            found.append(int(name))
    return found


class Draws(unittest.TestCase):
    @classmethod
    def setUpClass(cls):
        cls.proxy = needs.build()["proxy"]

    def draws(self, name, count, **changed):
        words = cases.law_words(cases.CASES[name]._replace(**changed), 0)
        done = subprocess.run([self.proxy, "--draws", str(count), *words], capture_output=True, text=True, check=True)
        return [tuple(map(int, line.split())) for line in done.stdout.splitlines()]

    def test_one_seed_draws_the_same(self):
        self.assertEqual(self.draws("base", 500), self.draws("base", 500))

    def test_another_seed_draws_others(self):
        ours, theirs = self.draws("base", 500), self.draws("base", 500, seed=7)
        self.assertLess(sum(a == b for a, b in zip(ours, theirs)), 5)

    def test_a_draw_does_not_go_by_those_before(self):
        self.assertEqual(self.draws("base", 500)[:40], self.draws("base", 20))

    def test_the_law_is_what_the_case_says(self):
        for name in ("base", "peaked", "round"):
            draws = self.draws(name, 20_000)
            queues = [delay - 1_000_000 for _, _, _, delay, _ in draws]
            mean = sum(queues) / len(queues)
            self.assertAlmostEqual(mean, 300_000, delta=10_000)
            self.assertGreaterEqual(min(queues), 0)
            square = sum((q - mean) ** 2 for q in queues) / len(queues)
            self.assertAlmostEqual(mean**2 / square / cases.CASES[name].shape, 1, delta=0.1)
            self.assertAlmostEqual(sum(lost for _, _, lost, _, _ in draws) / len(draws), 0.01, delta=0.003)

    def test_a_calm_link_has_no_queues(self):
        self.assertEqual({draw[2:] for draw in self.draws("calm", 300)}, {(0, 1_000_000, 1_000_000)})

    def test_ways_of_asym_differ(self):
        draws = self.draws("asym", 300)
        self.assertGreaterEqual(min(d[3] for d in draws if d[0] == 0), 1_400_000)
        self.assertLess(min(d[3] for d in draws if d[0] == 1), 1_050_000)
        self.assertEqual(cases.asymmetry(cases.CASES["asym"]), 200)

    def test_a_wrong_law_is_refused(self):
        for word in ("seed=x", "seed=", "sed=1", "seed", "loss=-1", "shape=0"):
            self.assertEqual(subprocess.run([self.proxy, "--draws", "1", word], capture_output=True).returncode, 2, word)


def series_of(errors, bounds, rates=None):
    """A case of one reading a second by counters of 1 GHz; the period of the radclocks is a count of 1 ns and so many ppm."""
    rates = rates or [0] * len(errors)
    moments = [Truth(i * 10**9, i * 10**9, 10, {}) for i in range(len(errors))]
    span = [round(GRAINS / 10**9 * (1 + r * 1e-6)) for r in rates]
    radclock = [Reading(e, b, None, 3.0, s) for e, b, s in zip(errors, bounds, span)]
    chrony = [Reading(2 * e, b, r, 1.0, None) for e, b, r in zip(errors, bounds, rates)]
    nothing = SimpleNamespace(estimates=SimpleNamespace(estimates=[], refused=[]))
    return SimpleNamespace(moments=moments, leads=[0.0] * len(errors), clocks={"radclock": nothing, "plain": nothing},
                           readings={"radclock": radclock, "plain": radclock, "chrony": chrony})


class Figures(unittest.TestCase):
    def test_quantiles(self):
        self.assertEqual([figures.quantile(list(range(100, 0, -1)), p) for p in (0, 0.5, 0.95, 0.99, 1)], [1, 51, 96, 100, 100])

    def test_sizes_go_by_the_size_and_tell_the_side(self):
        self.assertEqual(figures.sizes([-3000, 1000, -2000]),
                         {"median": 2, "95%": 3, "99%": 3, "greatest": 3, "signed median": -2})

    def test_what_is_outside_of_a_bound(self):
        self.assertEqual(figures.within([-5, 10, 11], [10, 10, 10]), {"median": 0.01, "95%": 0.01, "outside": 1, "most used": 1.1})

    def test_a_case(self):
        told = figures.case_figures(series_of([9e6] * 10 + [1000, -2000, 3000, -4000], [5000] * 14), 10)
        self.assertEqual(told["readings"], 4)
        self.assertEqual(told["time"]["radclock"]["error_us"], {"median": 3, "95%": 4, "99%": 4, "greatest": 4, "signed median": 1})
        self.assertEqual(told["time"]["chrony"]["error_us"]["greatest"], 8)
        self.assertEqual((told["time"]["radclock"]["bound_us"]["outside"], told["time"]["chrony"]["bound_us"]["outside"]), (0, 2))

    def test_differences(self):
        told = figures.case_figures(series_of([0, 1000] * 40, [5000] * 80, [2] * 80), 0)["differences_us"]
        self.assertEqual([told[s]["pairs"] for s in ("1", "10", "60")], [79, 70, 20])
        for span in (1, 10, 60):
            self.assertAlmostEqual(told[str(span)]["radclock"]["median"], 2 * span, places=2)  # 2 ppm of a span
            self.assertAlmostEqual(told[str(span)]["chrony frequency"]["median"], 2 * span, places=2)
            self.assertEqual(told[str(span)]["radclock"]["bound"]["outside"], 0)
            self.assertAlmostEqual(told[str(span)]["radclock"]["bound"]["median"], 3 * span, places=2)
        self.assertEqual([told[s]["chrony"]["median"] for s in ("1", "10", "60")], [2, 0, 0])  # it steps by 2 µs each second

    def test_a_lead_of_the_server_is_no_error(self):
        series = series_of([0] * 20, [5000] * 20, [30] * 20)
        series.leads = [30_000.0 * i for i in range(20)]
        self.assertEqual(figures.difference_figures(series, 10)["radclock"]["greatest"], 0)

    def test_no_reading(self):
        self.assertEqual(figures.case_figures(series_of([], []), 10), {"readings": 0})


class Rules(unittest.TestCase):
    def test_weights(self):
        bases = [SimpleNamespace(trip=t, base=100_000, start=0) for t in (100_000, 100_000 + 7_500, 100_000 + 187_500, 100_000)]
        counts = [0, 1000, 2000, 2000 + 2**23 * 7_500]
        self.assertEqual(list(rules.weights(bases, counts, 2, 60_000)), [(65536, 100_000), (64520, 107_500), (0, 287_500)])
        self.assertEqual([w for w, _ in rules.weights(bases, counts, 3, 60_000)], [64520, 61565, 0, 65536])  # one row for their age
        bases[3].start = 2
        self.assertEqual([w for w, _ in rules.weights(bases, counts, 3, 60_000)], [0, 65536])

    def test_what_a_bound_is_made_of(self):
        trips = [SimpleNamespace(trip=200_000, base=200_000, start=0)] * 3
        estimates = [SimpleNamespace(count=i, period=GRAINS // 10**9, error=130_000, flags=f) for i, f in enumerate(("---", "-L-", "--P"))]
        told = [(i, n, round(trip), round(rate)) for i, n, trip, rate in rules.parts(trips, estimates, 10**9)]
        self.assertEqual(told, [(0, 1, 100, 30), (1, 2, 100, 30)])

    def test_behind_a_shift(self):
        estimates = [SimpleNamespace(count=i * 100, flags="S--" if i == 40 else "---") for i in range(100)]
        moments = [Truth(i * 100 + 5, 0, 1, {}) for i in range(100)]
        readings = [Reading(1000.0 * i, 1, None, 1, 1) for i in range(100)]
        told = rules.behind_a_shift(readings, moments, estimates)
        self.assertEqual((told["readings"], told["greatest"]), (32, 71))
        self.assertEqual(rules.behind_a_shift(readings[:40], moments[:40], estimates), {"readings": 0})


class Changed(unittest.TestCase):
    """Round trips of 200 us in a world of 1 GHz, the server in the middle, one exchange a second."""

    def feed(self, stamps, rules=changed.Rules()):
        daemon = changed.Daemon(10**9, rules)
        return [daemon.feed(stamp) for stamp in stamps]

    def exchange(self, second, trip=200_000, late=0):
        sent = second * 10**9
        return sent, sent + trip // 2 + late, sent + trip // 2 + late, sent + trip

    def test_an_even_world(self):
        for e in self.feed([self.exchange(i) for i in range(100)]):
            self.assertAlmostEqual(e.time, e.count, delta=1)
            self.assertAlmostEqual(e.period, 1, places=9)
        self.assertGreater(e.spread, 100_000)  # half the round trip, and the rate's part
        self.assertLess(e.spread, 300_000)

    def test_a_level_shift(self):
        usual, never, wide = changed.Rules(), changed.Rules(shifts=False), changed.Rules(scale_us=120)
        for longer, rules, start in ((240_001, usual, 50), (240_000, usual, 0), (240_001, never, 0), (240_001, wide, 0)):
            daemon = changed.Daemon(10**9, rules)
            for i in range(100):
                daemon.feed(self.exchange(i, 200_000 if i < 50 else 200_000 + longer))
            self.assertEqual((daemon.start, daemon.shifted), (start, start // 50))

    def test_the_scale(self):
        stamps = [self.exchange(i, 200_000 + 200_000 * (i % 2), 40_000 * (i % 2)) for i in range(40)]
        self.assertAlmostEqual(self.feed(stamps)[-1].time - stamps[-1][3], 0, delta=1000)  # the longer ones have no weight
        self.assertGreater(self.feed(stamps, changed.Rules(scale_us=240))[-1].time - stamps[-1][3], 10_000)


class TruthItself(unittest.TestCase):
    def test_a_clock_that_is_steered_is_off_a_line(self):
        even = [Truth(i * 1000, 5 + i * 500, 1, {}) for i in range(100)]
        self.assertEqual(Line(even).told(even), {"counter_hz": 2e9, "off_a_line_us": dict.fromkeys(
            ("median", "95%", "99%", "greatest", "signed median"), 0)})
        slewed = [t._replace(nanos=t.nanos + max(i - 50, 0) * 5) for i, t in enumerate(even)]
        self.assertGreater(Line(slewed).told(slewed)["off_a_line_us"]["greatest"], 0.05)

    def test_what_the_machine_adds_to_the_ways(self):
        line = Line([Truth(i * 10**9, i * 10**9, 1, {}) for i in range(3)])  # a count is a ns
        stamps, ways = [], ([], [])
        for i in range(1, 5):
            sent = i * 10**9
            left, home = sent + 3_000 + 1_000_000, sent + 1_004_000 + 20_000 + 9_000  # 3 us to the proxy, 1 to the server; then 9
            ways[0].append((sent + 3_000, 1_000_000, left))
            ways[1].append((home, 1_000_000, home + 1_000_500))  # half a us late
            stamps.append((sent, left + 1_000, left + 21_000, home + 1_000_500 + 2_000))
        told = beside_the_proxy(stamps, ways, line, cases.CASES["calm"], 0)
        self.assertEqual([told[way]["median"] for way in ("out", "back", "unseen")], [4, 11, 3.5])
        self.assertEqual(told["unseen"]["signed median"], -3.5)
        self.assertEqual(late(ways)["95%"], 0.5)


class Clocks(unittest.TestCase):
    def test_a_probe_that_was_stopped(self):
        with tempfile.NamedTemporaryFile("w", suffix=".txt") as file:
            file.write("truth 5 1000 3\nasked 99 1 2 3 4 0 65536 32768\ntruth 6 20")
            file.flush()
            self.assertEqual(read_probe(file.name), [Truth(5, 1000, 3, {99: Answer(1, 2, 3, 4, 0, 65536, 32768)})])

    def test_chrony_by_its_answers_and_its_log(self):
        with tempfile.NamedTemporaryFile("w", suffix=".log") as file:
            file.write("=====\n   Date (UTC) Time IP Address St Freq ppm Skew ppm Offset L Co Offset sd Rem. corr. Root delay\n=====\n"
                       "2026-12-02 16:50:00 127.0.0.1 2 -30.5 0.4 1e-6 N 1 1e-6 0 2e-3 1e-5 1e-5\n")
            file.flush()
            chrony = Chrony(file.name, 99)
        begin = 1796230200 * 10**9
        answer = Answer(begin + 10, begin + 110, begin + 210, begin + 250, 0, 131072, 65536)
        reading = chrony.at(Truth(1, begin + 10**9, 1, {99: answer}), 5.0)
        self.assertEqual(reading, Reading(25.0, 2e9, 30.5, 0.4, None))
        self.assertIsNone(chrony.at(Truth(1, begin, 1, {99: answer}), 0.0).rate)
        self.assertIsNone(chrony.at(Truth(1, begin, 1, {}), 0.0))
        self.assertIsNone(chrony.at(Truth(1, begin, 1, {99: answer._replace(leap=3)}), 0.0))

    def test_the_lead_of_the_swing(self):
        case = cases.CASES["swing"]
        at = lambda seconds: cases.ahead(case, 1000, (1000 + seconds) * 10**9)
        self.assertEqual(at(0), 0)
        self.assertAlmostEqual(at(1200), 30 * 1200 * 1000, delta=1)
        self.assertAlmostEqual(at(1) - at(0), 30_100, delta=1)  # 30 ppm and 0.1 ppm more
        self.assertEqual(cases.ahead(cases.CASES["base"], 1000, 5 * 10**9), 0)


class Machine(unittest.TestCase):
    def test_steering(self):
        told = machine.steering()
        self.assertEqual(set(told), {"frequency_ppm", "offset", "tick_us", "status"})
        self.assertGreater(told["tick_us"], 8999)
        free = dict(told, offset=0)
        self.assertTrue(machine.is_free(free, dict(free)))
        self.assertFalse(machine.is_free(free, dict(free, frequency_ppm=told["frequency_ppm"] + 1)))
        self.assertFalse(machine.is_free(dict(free, offset=3), dict(free, offset=3)))

    def test_what_is_missing_is_told(self):
        paths, needs.PATHS = needs.PATHS, "/nowhere"
        try:
            told = "; ".join(needs.missing())
        finally:
            needs.PATHS = paths
        for word in ("chronyd", "cc", "setpriv"):
            self.assertIn(word, told)


class Children(unittest.TestCase):
    def start(self, block, *words):
        return block.start(words, os.devnull, self.errors)

    def setUp(self):
        self.folder = tempfile.TemporaryDirectory()
        self.addCleanup(self.folder.cleanup)
        self.errors = os.path.join(self.folder.name, "err")

    def test_all_end_with_the_block(self):
        with self.assertRaises(ZeroDivisionError), children.Children([]) as block:
            started = [self.start(block, "sleep", "100"), self.start(block, "sh", "-c", "trap '' TERM; sleep 100 & wait; sleep 100")]
            time.sleep(0.3)
            children.PATIENCE, patience = 0.5, children.PATIENCE
            self.addCleanup(setattr, children, "PATIENCE", patience)
            1 / 0
        self.assertEqual([child.returncode for child in started], [-signal.SIGTERM, -signal.SIGKILL])

    def test_one_that_ends_is_a_fault(self):
        with children.Children([]) as block:
            failed = self.start(block, "sh", "-c", "echo no port >&2; exit 3")
            failed.wait()
            with self.assertRaisesRegex(children.Fault, "ended with 3: no port"):
                block.check(but=None)
            block.check(but=failed)


@unittest.skipIf(needs.missing(), "; ".join(needs.missing()))
class Whole(unittest.TestCase):
    """A run of some seconds, in a session of its own, so that each process of it can be found."""

    def setUp(self):
        folder = tempfile.TemporaryDirectory()
        self.addCleanup(folder.cleanup)
        self.folder = os.path.join(folder.name, "run")
        self.program = os.path.join(folder.name, "radclock")
        with open(self.program, "w") as file:
            file.write(STAND_IN)
        os.chmod(self.program, 0o755)

    def beside(self, *words):
        words = [sys.executable, os.path.join(HERE, "beside"), *words, "--folder", self.folder, "--program", self.program,
                 "--port", "44300"]
        child = subprocess.Popen(words, stdout=subprocess.PIPE, stderr=subprocess.PIPE, text=True, start_new_session=True)
        self.addCleanup(child.stderr.close)
        self.addCleanup(child.stdout.close)
        return child

    def wait_for(self, child, name):
        end = time.monotonic() + 30
        while not os.path.exists(os.path.join(self.folder, name)) or os.path.getsize(os.path.join(self.folder, name)) == 0:
            self.assertIsNone(child.poll())
            self.assertLess(time.monotonic(), end)
            time.sleep(0.1)

    def test_a_run(self):
        child = self.beside("0.2", "calm", "swing")
        self.wait_for(child, "probe.txt")
        # The command, server and probe; in a case three proxies and three clocks.
        self.assertEqual(len(in_session(child.pid)), 3 + 2 * 6)
        out, err = child.communicate(timeout=120)
        self.assertEqual(child.returncode, 0, err)
        self.assertEqual(in_session(child.pid), [])
        self.assertRegex(out, r"(?m)^calm +radclock ")
        with open(f"{self.folder}/figures.json") as file:
            told = json.load(file)
        self.assertEqual((told["seconds"], list(told["cases"]), told["left_out_s"]), (12, ["calm", "swing"], 4))
        for case in told["cases"].values():
            self.assertGreater(case["readings"], 3)
            self.assertLess(case["time"]["radclock"]["error_us"]["median"], 2000)
        self.assertLess(told["truth"]["asking_us"]["median"], 500)
        for name in ("time.svg", "time.png", "differences.svg", "differences.png"):
            self.assertGreater(os.path.getsize(f"{self.folder}/{name}"), 5000, name)
        with open(f"{self.folder}/calm/readings.csv") as file:
            self.assertEqual(next(csv.reader(file))[:3], ["second", "radclock", "radclock bound"])

    def test_signals_stop_all(self):
        for number, status in ((signal.SIGINT, 130), (signal.SIGTERM, 128 + signal.SIGTERM)):
            child = self.beside("5", "calm")
            self.wait_for(child, "probe.txt")
            self.assertGreater(len(in_session(child.pid)), 5)
            os.kill(child.pid, number)
            child.communicate(timeout=30)
            self.assertEqual((child.returncode, in_session(child.pid)), (status, []))
            os.remove(f"{self.folder}/probe.txt")

    def test_a_kill_stops_all(self):
        child = self.beside("5", "calm")
        self.wait_for(child, "probe.txt")
        os.kill(child.pid, signal.SIGKILL)
        child.wait()
        end = time.monotonic() + 5
        while in_session(child.pid) and time.monotonic() < end:
            time.sleep(0.05)
        self.assertEqual(in_session(child.pid), [])

    def test_a_child_that_dies_stops_all(self):
        child = self.beside("5", "calm")
        self.wait_for(child, "probe.txt")
        told = subprocess.run(["ps", "-s", str(child.pid), "-o", "pid=,args="], capture_output=True, text=True).stdout.splitlines()
        proxy = next(int(line.split()[0]) for line in told if "plain.proxy" in line)
        os.kill(proxy, signal.SIGKILL)
        _, err = child.communicate(timeout=30)
        self.assertEqual((child.returncode, in_session(child.pid)), (1, []))
        self.assertIn("plain.proxy.err", err)

    def test_words(self):
        for words, said in ((["1", "none"], "there is no case `none`"), (["1", "calm", "--again"], "")):
            child = self.beside(*words)
            _, err = child.communicate(timeout=30)
            self.assertEqual(child.returncode, 1)
            self.assertIn(said, err)
        self.assertEqual(self.beside("0.01").wait(), 2)


class Tables(unittest.TestCase):
    def setUp(self):
        self.cases = {"calm": {"what": "", **figures.case_figures(series_of([1000] * 70, [5000] * 70), 0)}, "slow": {"readings": 0}}

    def test_text(self):
        lines = list(tables.text(self.cases))
        self.assertRegex(lines[1], r"^calm    radclock +1\.00 +1\.00 +1\.00 +1\.00 +\+1\.0 +5\.00 +0 of 70 +0\.00, 0\.00, 0\.00$")
        self.assertEqual(len(lines), 4)

    def test_markdown(self):
        lines = tables.markdown(self.cases).split("\n")
        one, two = "1.00, 1.00, 1.00, 1.00", "2.00, 2.00, 2.00, 2.00"
        self.assertEqual(lines[2], f"| calm | 70 | {one} | {one} | {two} | 5, 5 | 0, 0 |")
        self.assertEqual(lines[6], "| calm | 1 s | 0.00 / 0.00 | 3.00 | 0.00 / 0.00 | 0.00 / 0.00 | 0.00 / 0.00 |")
        self.assertEqual(len(lines), 10)


if __name__ == "__main__":
    unittest.main()
