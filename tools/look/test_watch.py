"""Tests of `look watch`, and of the system's clock in `look summary --exchanges`."""
import os
import re
import stat
import tempfile
import time
import unittest
from unittest import mock

import watch
from test_look import DATA, GRAINS, data, grains, look

ESTIMATES = [line.split(" ") for line in data("estimate.txt").splitlines() if line.startswith("estimate ")]
OFFS = [1000 * (k - 5) ** 2 for k in range(len(ESTIMATES))]  # ns
NOON = 1_700_049_600


def stamps(head=""):
    """A stamp file of the estimates' counts, with a system's clock that is ahead by OFFS, rounded up."""
    text = f"radclock-stamps 2\nfreq 2400000000\n{head}"
    for e, off in zip(ESTIMATES, OFFS):
        nanos = -(-grains(e[3]) * 10**9 // GRAINS) + off
        text += f"# system {nanos // 10**9}.{nanos % 10**9:09d}\n{int(e[2]) - 9} 1.5 1.5 {e[2]} 1 0\n"
    return text


class Folder(unittest.TestCase):
    def setUp(self):
        folder = tempfile.TemporaryDirectory()
        self.addCleanup(folder.cleanup)
        self.folder = folder.name

    def file(self, name, text, mode=0o600):
        path = os.path.join(self.folder, name)
        with open(path, "w", encoding="ascii") as file:
            file.write(text)
        os.chmod(path, mode)
        return path

    def program(self, name, text):
        return self.file(name, "#!/bin/sh\n" + text, stat.S_IRWXU)


class SystemClock(Folder):
    def line(self, text, report="estimate.txt"):
        status, out, err = look(["summary", "--exchanges", self.file("stamps", text)], data(report))
        self.assertEqual((status, err), (0, ""))
        return re.search("System clock +: (.*)\n", out)[1]

    def test_the_middle_and_the_last(self):
        for report in ("estimate.txt", "ticks.txt", "replay.txt"):
            self.assertEqual(self.line(stamps(), report), f"+{sorted(OFFS)[11] // 1000}.000 us in the middle, +324.000 us at the last of 24 "
                                                          "exchanges; above 0 it is ahead")
        behind = re.sub(r"system (\d+)", lambda found: f"system {int(found[1]) - 1}", stamps())
        self.assertTrue(self.line(behind).startswith("-999"))

    def test_only_a_stamp_behind_the_comment_counts(self):
        none = "not known: no comment `# system` stands before an exchange that the report knows"
        self.assertEqual(self.line(stamps().replace("\n# system", "\n# sys")), none)
        self.assertEqual(self.line(re.sub("(# system.*\n)", r"\1# more\n", stamps())), none)
        self.assertIn("+324.000 us at the last of 23 ", self.line(stamps().replace("# system", "# sys", 1)))
        self.assertIn(" at the last of 24 ", self.line(stamps().replace("\n", "\r\n")))
        self.assertNotIn("System", look(["summary"], data("estimate.txt"))[1])

    def test_wrong_words(self):
        for words in (["--exchanges", "-"], ["--exchanges", os.path.join(DATA, "none")]):
            status, out, err = look(["summary", *words], data("estimate.txt"))
            self.assertEqual((status, out), (1, ""))
            self.assertRegex(err, r"\Alook: [^\n]+\n\Z")


class Watch(Folder):
    def program_and_collect(self, count, report=None):
        """A program that keeps what it is given, and a counter that stands at a count while the system's clock passes noon."""
        path = self.file("report", report or data("estimate.txt"))
        program = self.program("radclock", f'[ "$*" = estimate ] && cat > {self.folder}/given && cat {path}\n')
        return program, self.program("collect", f'[ "$*" = "--now --system" ] && echo {count} {NOON - 1}.999999950 {NOON}.000000060\n')

    def watched(self, stamps_text, count, report=None, rounds="1"):
        """What is shown of a file."""
        program, collect = self.program_and_collect(count, report)
        status, out, err = look(["watch", "--rounds", rounds, "--every", "1", "--program", program, "--collect", collect,
                                 self.file("stamps", stamps_text)])
        self.assertEqual(err, "")
        return status, out

    def given(self):
        with open(os.path.join(self.folder, "given"), encoding="ascii") as file:
            return file.read()

    def test_the_summary_and_the_time_now(self):
        last = ESTIMATES[-1]
        count = int(last[2]) + 24 * 10**9
        status, out = self.watched(stamps(), count)
        self.assertEqual(status, 0)
        summary = look(["summary", "--exchanges", os.path.join(self.folder, "stamps")], data("estimate.txt"))[1]
        self.assertTrue(out.startswith(summary))
        now = grains(last[3]) + 24 * 10**9 * int(last[4])
        seconds, rest = divmod(now * 10**9 // GRAINS, 10**9)
        self.assertIn(f"Now by counter: {time.strftime('%Y-%m-%d %H:%M:%S', time.gmtime(seconds))}.{rest:09d} UTC, off by ", out)
        ahead = ((NOON * 10**9 + 5) * GRAINS // 10**9 - now) * 10**9 // GRAINS
        self.assertIn(f"Now by system : 2023-11-15 12:00:00.000000005 UTC, ahead by +{ahead // 1000}.{ahead % 1000:03d} us "
                      "(read within 55 ns of the counter)\n", out)

    def test_the_bound_of_now(self):
        last = ESTIMATES[-1]
        out = self.watched(stamps(), int(last[2]) + 24 * 10**9)[1]
        bound = int(last[5]) * 18446744074 + -(-24 * 10**9 * int(last[4]) * int(last[6]) // 10**12)
        self.assertIn(f", off by {-(-bound * 10**9 // GRAINS)} ns at most\n", out)

    def test_a_line_that_is_not_whole_waits(self):
        self.watched(stamps() + "921602999", 10**12)
        self.assertEqual(self.given(), stamps())
        for text in ("", "radclock-stamps 2\n", "radclock-stamps 2\nfreq 24"):
            self.assertIn("no exchanges yet", self.watched(text, 5)[1])
        none = "report estimate freq 2400000000\nend accepted 0 refused 0\n"
        self.assertNotIn("Now", self.watched("radclock-stamps 2\nfreq 2400000000\n", 5, none)[1])

    def test_the_counter(self):
        count = int(ESTIMATES[-1][2]) + 10**9
        now = re.search("Now by counter: .*", self.watched(stamps(), count)[1])[0]
        less = stamps(f"# Each count is written less {2**61}.\n")
        self.assertIn(now, self.watched(less, count + 2**61)[1])
        self.assertIn(now, self.watched(less, count)[1])
        self.assertIn("Now           : not known: the counter stands at 5, before the last", self.watched(stamps(), 5)[1])
        self.assertIn("--now --system` tells no count", self.watched(stamps(), "x")[1])
        self.assertIn("--now --system` tells no count", self.watched(stamps(), f"{count}; exit 1 #")[1])
        raw = self.watched(stamps("# The counter is CLOCK_MONOTONIC_RAW, in ns.\n"), "x")[1]
        self.assertRegex(raw, "Now by counter|before the last estimate")

    def test_rounds(self):
        self.assertEqual(self.watched(stamps(), 10**12, rounds="2")[1].count("Counter  "), 2)

    def test_where_the_programs_are(self):
        tool = os.path.join(self.folder, "lib", "radclock", "look")
        for folder in (tool, "bin", "path", os.path.join("lib", "out")):
            os.makedirs(os.path.join(self.folder, folder))
        built, installed, on_path = (os.path.join(self.folder, *place, "p") for place in (("lib", "out"), ("bin",), ("path",)))
        with mock.patch.object(watch, "HERE", tool), mock.patch.dict(os.environ, PATH=os.path.dirname(on_path)):
            self.assertEqual(watch.program_at("p", os.path.join("out", "p")), "p")
            for path in (on_path, installed, built):
                self.program(path, "")
                self.assertEqual(watch.program_at("p", os.path.join("out", "p")), path)

    def test_what_cannot_be(self):
        path = self.file("stamps", stamps())
        broken = self.program("broken", "echo fault input 3 digits\n")
        for words in (["--program", os.path.join(DATA, "none"), path], ["--program", broken, path], [], [os.path.join(DATA, "none")],
                      ["--every", "0", path], ["--rounds", "x", path]):
            status, out, err = look(["watch", "--rounds", "1", *words])
            self.assertEqual((status, out), (1, ""))
            self.assertRegex(err, r"\Alook: [^\n]+\n\Z")


if __name__ == "__main__":
    unittest.main()
