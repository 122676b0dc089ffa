"""Tests of what `make install` lays, and that each page of the manual has all options of its command."""
import os
import re
import shutil
import subprocess
import tempfile
import unittest

TOP = os.path.dirname(os.path.dirname(os.path.dirname(os.path.abspath(__file__))))
COMMANDS = ["collect", "look", "pcap", "radclock"]
REPORT = os.path.join(TOP, "tools", "look", "testdata", "estimate.txt")
STAMPS = "radclock-stamps 2\nfreq 2400000000\n"
OPTION = r"(?<![\w-])-{1,2}[a-z0-9][a-z-]*"


def page(name):
    return os.path.join(TOP, "docs", "man", f"{name}.1")


class Install(unittest.TestCase):
    @classmethod
    def setUpClass(cls):
        folder = tempfile.TemporaryDirectory()
        cls.addClassCleanup(folder.cleanup)
        cls.folder = folder.name
        cls.program = os.path.join(cls.folder, "built", "radclock")
        os.mkdir(os.path.dirname(cls.program))
        with open(cls.program, "w", encoding="ascii") as file:
            file.write(f"#!/bin/sh\n[ \"$*\" = estimate ] && cat > /dev/null && cat '{REPORT}'\n")
        cls.make("install")

    @classmethod
    def make(cls, target):
        subprocess.run(["make", "-C", TOP, target, f"DESTDIR={cls.folder}", "PREFIX=/to", f"RADCLOCK={cls.program}"],
                       capture_output=True, check=True)

    def laid(self):
        """The paths of all files and links."""
        return sorted(os.path.relpath(os.path.join(folder, name), os.path.join(self.folder, "to"))
                      for folder, _, names in os.walk(os.path.join(self.folder, "to")) for name in names)

    def run_in(self, name, *words):
        """A run of an installed tool, which finds no other one."""
        env = {"PATH": os.path.dirname(shutil.which("python3")) + ":/usr/bin:/bin", "PYTHONDONTWRITEBYTECODE": "1"}
        env.update((key, value) for key, value in os.environ.items() if key.startswith("PYENV"))
        run = subprocess.run([os.path.join(self.folder, "to", "bin", name), *words], capture_output=True, text=True, env=env, check=False)
        return run.returncode, run.stdout, run.stderr

    def test_what_is_laid(self):
        laid = self.laid()
        for name in COMMANDS:
            self.assertIn(f"bin/{name}", laid)
            self.assertIn(f"share/man/man1/{name}.1", laid)
        self.assertEqual([path for path in laid if "test" in path or "cache" in path], [])

    def test_each_tool_runs_there(self):
        status, out, err = self.run_in("collect", "--now")
        self.assertEqual((status, err), (0, ""))
        self.assertRegex(out, r"\A\d+\n\Z")
        self.assertIn("Accepted      : 24 exchanges", self.run_in("look", "summary", "-f", REPORT)[1])
        none = os.path.join(self.folder, "none")
        self.assertEqual(self.run_in("pcap", none), (1, "", f"pcap: {none}: No such file or directory\n"))

    def test_a_watch_takes_what_is_installed_beside_it(self):
        path = os.path.join(self.folder, "stamps")
        with open(path, "w", encoding="ascii") as file:
            file.write(STAMPS)
        status, out, err = self.run_in("look", "watch", "--rounds", "1", path)
        self.assertEqual((status, err), (0, ""))
        self.assertIn("Accepted      : 24 exchanges", out)
        self.assertNotIn("tells no count", out)

    def test_all_can_be_taken_away(self):
        self.make("uninstall")
        self.assertEqual(self.laid(), [])
        self.make("install")


class Pages(unittest.TestCase):
    def options(self, words):
        """The options that a command tells of itself."""
        run = subprocess.run(words, capture_output=True, text=True, cwd=os.path.join(TOP, "tools"), check=False)
        return set(re.findall(OPTION, run.stdout + run.stderr)) - {"-h", "--help"}

    def on_page(self, name):
        with open(page(name), encoding="ascii") as file:
            return file.read().replace("\\-", "-").replace("\\f", " \\f")

    def test_each_option_has_its_place(self):
        subprocess.run(["make", "-C", TOP, "tools"], capture_output=True, check=True)
        told = {name: self.options([f"{name}/{name}", "-h"]) for name in ("collect", "pcap")}
        told["look"] = set().union(*(self.options(["look/look", command, "-h"]) for command in ("summary", "watch", "at", "stamp", "plot")))
        self.assertTrue(all(len(options) > 2 for options in told.values()))
        for name, options in told.items():
            places = re.findall(r"^\.(?:TP\n\.BI?) (%s)" % OPTION, self.on_page(name), re.M)
            self.assertEqual(options - set(places), set(), name)
            self.assertEqual(set(places) - options, set(), name)

    def test_pages_can_be_set(self):
        if not shutil.which("groff"):
            self.skipTest("no groff")
        for name in COMMANDS:
            run = subprocess.run(["groff", "-t", "-man", "-Tutf8", "-ww", page(name)], capture_output=True, check=False)
            self.assertEqual((run.returncode, run.stderr), (0, b""), name)
            self.assertIn(b"SEE ALSO", re.sub(b".\x08", b"", run.stdout))


if __name__ == "__main__":
    unittest.main()
