"""Tests of a built radclock over the real captures of sample/: python3 tools/test_samples.py, at the top of the repository.

RADCLOCK names the program; else it is the one that `rt run` built.
"""
import os
import subprocess
import unittest

TOP = os.path.dirname(os.path.dirname(os.path.abspath(__file__)))
PROGRAM = os.environ.get("RADCLOCK", os.path.join(TOP, "crates", "radclock", "out", "radclock"))
GRAINS = 2**64  # of a second


def radclock(command, text):
    run = subprocess.run([PROGRAM, command], input=text, capture_output=True, check=True)
    return run.stdout


def stamps_of(name):
    """The stamp file that a sample becomes, as text and as columns of its stamps."""
    with open(os.path.join(TOP, "sample", name), "rb") as file:
        text = radclock("capture", file.read())
    lines = text.decode().splitlines()
    return text, [line.split(" ") for line in lines[2:] if not line.startswith("#")]


def nanos(time):
    seconds, rest = time.split(".")
    return int(seconds) * 10**9 + int(rest)


def estimates_of(text):
    """Count, time in ns and its bound in ns, of each estimate."""
    found = []
    for line in radclock("estimate", text).decode().splitlines():
        if line.startswith("estimate "):
            _, _, count, time, _, bound, *_ = line.split(" ")
            seconds, grains = map(int, time.split("+"))
            found.append((int(count), seconds * 10**9 + grains * 10**9 // GRAINS, int(bound)))
    return found


class Samples(unittest.TestCase):
    def test_what_tcpdump_saw(self):
        text, stamps = stamps_of("packets.radcap")
        self.assertEqual(len(stamps), 55)
        # The server's clock and the counter are one clock here, so the server's times lie between the counts, but for what it rounds.
        offsets = [(nanos(tb) + nanos(te) - int(ta) - int(tf)) // 2 for ta, tb, te, tf, *_ in stamps]
        self.assertLess(max(offsets) - min(offsets), 200_000)
        truth = sorted(offsets)[len(offsets) // 2]
        estimates = estimates_of(text)
        self.assertEqual(len(estimates), 55)
        for count, time, bound in estimates:
            self.assertLess(abs(time - count - truth), bound)

    def test_what_collect_recorded(self):
        text, stamps = stamps_of("collected.radcap")
        self.assertEqual((len(stamps), len(estimates_of(text))), (40, 40))
        with open(os.path.join(TOP, "crates", "radclock_capture", "stdout"), "rb") as file:
            self.assertEqual(text, file.read())

    def test_a_capture_that_is_cut(self):
        with open(os.path.join(TOP, "sample", "packets.radcap"), "rb") as file:
            cut = file.read()[:-1]
        run = subprocess.run([PROGRAM, "capture"], input=cut, capture_output=True, check=False)
        self.assertEqual((run.returncode, run.stdout), (7, b"fault capture 6447 cut\n"))


if __name__ == "__main__":
    unittest.main()
