"""Programs that are started together and stopped together, whatever comes between."""
import os
import shutil
import signal
import subprocess
import time

PATIENCE = 5  # s until one that does not end is killed


class Fault(Exception):
    """What went wrong, in one line."""


def priority():
    """The words that start a program before all others, as far as this machine allows."""
    for words in (["chrt", "-f", "50"], ["nice", "-n", "-20"]):
        if shutil.which(words[0]) and subprocess.run([*words, "true"], capture_output=True).returncode == 0:
            return words
    return []


class Children:
    """A block with `with`: at its end, by whatever, all that it started is stopped."""

    def __init__(self, before):
        self.before = before  # what stands before the words of each program
        self.started = []

    def __enter__(self):
        return self

    def start(self, words, out, err, setpriv=()):
        """Starts a program. It dies with this one, even where this one is killed."""
        words = ["setpriv", "--pdeathsig", "KILL", *setpriv, *self.before, *map(str, words)]
        with open(out, "wb") as output, open(err, "wb") as errors:
            child = subprocess.Popen(words, stdin=subprocess.DEVNULL, stdout=output, stderr=errors)
        child.told = err
        self.started.append(child)
        return child

    def check(self, but):
        """Tells the first one that ended, but for one that may."""
        for child in self.started:
            if child is not but and child.poll() is not None:
                with open(child.told, errors="replace") as told:
                    last = told.read().strip().split("\n")[-1]
                raise Fault(f"`{os.path.basename(child.told)}` tells that a program ended with {child.returncode}: {last}")

    def __exit__(self, *_):
        held = {number: signal.signal(number, signal.SIG_IGN) for number in (signal.SIGINT, signal.SIGTERM, signal.SIGHUP)}
        for child in self.started:
            if child.poll() is None:
                child.terminate()
        end = time.monotonic() + PATIENCE
        for child in self.started:
            try:
                child.wait(max(end - time.monotonic(), 0.01))
            except subprocess.TimeoutExpired:
                child.kill()
                child.wait()
        for number, handler in held.items():
            signal.signal(number, handler)
