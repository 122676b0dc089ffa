"""Tests of `look plot`. They run the command itself, which may have to look for the Python that has matplotlib."""
import os
import subprocess
import sys
import tempfile
import unittest
import xml.etree.ElementTree
from unittest import mock

import cli
from test_look import DATA, HERE, SECOND, data, hand_replay
from test_stamp import wrong_report

RTT, TICKS = os.path.join(DATA, "rtt.txt"), os.path.join(DATA, "ticks.txt")
NONE = "report rtt freq 1000000000\nend accepted 0 refused 0\n"
ROWS = {
    "rtt": ["Round trips"],
    "estimate": ["The counter's frequency, from nominal, with its bounds", "The counter's frequency, from nominal, in its own scale"],
    "bound": ["By how much the absolute clock may be off: the time bound"],
    "ticks": ["The uninterrupted clock, from the absolute one, with its bound", "The uninterrupted clock, from the absolute one, in its own scale"],
    "replay": ["readings, from the absolute clock at their count", "Intervals that were read, from those at the nominal frequency"],
}


def plot(words, text, python=sys.executable):
    run = subprocess.run([python, os.path.join(HERE, "look"), "plot", *words], input=text.encode(), capture_output=True, check=False)
    return run.returncode, run.stdout.decode(), run.stderr.decode()


class Plot(unittest.TestCase):
    def setUp(self):
        self.folder = tempfile.TemporaryDirectory()
        self.addCleanup(self.folder.cleanup)
        if "needs matplotlib" in plot(["x.svg"], NONE)[2]:
            self.skipTest("no matplotlib")

    def path(self, name):
        return os.path.join(self.folder.name, name)

    def file(self, name, text):
        with open(self.path(name), "w", encoding="ascii") as file:
            file.write(text)
        return self.path(name)

    def drawn(self, words, text):
        """All that stands in a picture."""
        path = self.path("picture.svg")
        self.assertEqual(plot([path, *words], text), (0, "", ""))
        return " ".join(" ".join(xml.etree.ElementTree.parse(path).getroot().itertext()).split())

    def rows(self, words, text, *expected):
        drawn = self.drawn(words, text)
        for name, titles in ROWS.items():
            for title in titles:
                self.assertEqual(drawn.count(title), int(name in expected), title)
        return drawn

    def test_all_that_is_told_is_drawn(self):
        drawn = self.rows(["-f", "-", "-f", RTT], hand_replay(0), *ROWS)
        self.assertIn("windup", drawn)

    def test_each_row_is_drawn_once(self):
        self.rows(["-f", "-", "-f", RTT, "-f", TICKS, "-f", os.path.join(DATA, "estimate.txt")], hand_replay(0), *ROWS)

    def test_no_more_is_drawn(self):
        self.rows([], data("ticks.txt"), "bound", "ticks")
        self.rows([], data("estimate.txt"), "bound", "estimate")
        self.rows([], data("rtt.txt"), "rtt")

    def test_one_time_axis(self):
        drawn = self.rows(["-f", "-", "-f", RTT], data("estimate.txt"), "rtt", "bound", "estimate")
        self.assertEqual(drawn.count("seconds from 2023-11-14 22:13:36.001 UTC"), 1)
        self.assertNotIn("accepted exchange", drawn)
        alone = self.drawn([], data("rtt.txt"))
        self.assertIn("accepted exchange", alone)
        self.assertNotIn("seconds from", alone)

    def test_what_is_cut_off_is_marked(self):
        self.assertEqual(self.drawn([], data("estimate.txt")).count("cut off"), 3)
        self.assertEqual(self.drawn([], data("rtt.txt")).count("cut off"), 0)

    def test_sets_are_marked(self):
        words = ["-f", "-"]
        for name in ("rtt", "ticks"):
            words += ["-f", self.file(name, SECOND[name].replace("accepted 1", "accepted 2").replace("\nset", "\nbase 1 100000 100000 0 0\nset"))
                      if name == "rtt" else self.file(name, SECOND[name])]
        self.assertEqual(self.drawn(words, SECOND["estimate"]).split().count("set"), 6)
        for name in ("estimate", "ticks"):
            self.assertEqual(self.drawn([], SECOND[name]).split().count("set"), 3, name)

    def test_a_wrong_frequency_is_told(self):
        for name in ("estimate.txt", "ticks.txt"):
            self.assertIn("WARNING: the frequency 2400000000 Hz", self.drawn([], wrong_report(name, 1)))
            self.assertNotIn("WARNING", self.drawn([], data(name)))

    def test_png(self):
        path = self.path("picture.png")
        self.assertEqual(plot([path], data("ticks.txt")), (0, "", ""))
        with open(path, "rb") as file:
            self.assertEqual(file.read(8), b"\x89PNG\r\n\x1a\n")

    def test_wrong_input(self):
        short = data("rtt.txt").replace("base 23 2102272 880581 0 0\n", "").replace("accepted 24", "accepted 23")
        for words, text in ((["picture.pdf"], data("ticks.txt")), ([self.path("none/picture.svg")], data("ticks.txt")), (["x.svg"], NONE),
                            (["x.svg", "-f", "-", "-f", RTT], NONE), (["x.svg", "-f", "-", "-f", TICKS], short),
                            (["x.svg", "-f", "-", "-f", RTT], data("ticks.txt").replace("tick 5 take", "tick 5 plain"))):
            status, out, err = plot(words, text)
            self.assertEqual((status, out), (1, ""))
            self.assertRegex(err, r"\Alook: [^\n]+\n\Z")


class Python(unittest.TestCase):
    def test_another_python_is_looked_for(self):
        with tempfile.TemporaryDirectory() as folder:
            python = os.path.join(folder, "python3")
            os.symlink("/bin/sh", python)
            os.mkdir(os.path.join(folder, "matplotlib"))
            with mock.patch.multiple(cli, DEBIAN_PYTHON=python, DEBIAN_PACKAGES=folder):
                self.assertEqual(cli.other_python(), python)
                with mock.patch.object(sys, "executable", "/bin/sh"):
                    self.assertIsNone(cli.other_python())
            with mock.patch.multiple(cli, DEBIAN_PYTHON=python, DEBIAN_PACKAGES=os.path.join(folder, "none")):
                self.assertIsNone(cli.other_python())


if __name__ == "__main__":
    unittest.main()
