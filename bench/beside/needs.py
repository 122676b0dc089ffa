"""What the bench wants installed, and its own programs, which it builds."""
import os
import shutil
import subprocess
import sys

from children import Fault

HERE = os.path.dirname(os.path.abspath(__file__))
TOP = os.path.dirname(os.path.dirname(HERE))
BUILT = os.path.join(HERE, "out")
COLLECT = os.path.join(TOP, "tools", "collect")
FLAGS = ["-std=c11", "-O2", "-Wall", "-Wextra"]
WANTED = {"chronyd": "chrony", "cc": "gcc", "setpriv": "util-linux", "chrt": "util-linux"}  # Debian's packages
PATHS = os.pathsep.join([os.environ.get("PATH", ""), "/usr/local/sbin", "/usr/sbin", "/sbin"])
DEBIAN_PYTHON = "/usr/bin/python3"  # the one that Debian's matplotlib is for


def path_of(program):
    return shutil.which(program, path=PATHS)


def python_with_pictures():
    """A Python that has matplotlib, or None."""
    for python in (sys.executable, DEBIAN_PYTHON):
        if os.access(python, os.X_OK) and subprocess.run([python, "-c", "import matplotlib"], capture_output=True).returncode == 0:
            return python
    return None


def missing():
    """What is to be installed first: lines to be told."""
    lines = [f"{program}, of Debian's package {package}" for program, package in WANTED.items() if not path_of(program)]
    if not python_with_pictures():
        lines.append("matplotlib, of Debian's package python3-matplotlib")
    if os.geteuid() != 0:
        lines.append("root: chronyd starts by no other, and its right to set the clock is taken from it")
    return lines


def build():
    """Proxy, probe and collect."""
    os.makedirs(BUILT, exist_ok=True)
    into = lambda name: os.path.join(BUILT, name)
    here = lambda *names: [os.path.join(HERE, name) for name in names]
    there = lambda *names: [os.path.join(COLLECT, name) for name in names]
    for words in (["-o", into("proxy"), *here("proxy.c", "draws.c"), "-lm"],
                  ["-o", into("probe"), *here("probe.c"), *there("counter.c")],
                  ["-o", into("collect"), *there("collect.c", "counter.c", "exchange.c", "file.c")]):
        done = subprocess.run(["cc", *FLAGS, *words], capture_output=True, text=True)
        if done.returncode:
            raise Fault(f"cc failed: {done.stderr.strip()}")
    return {name: into(name) for name in ("proxy", "probe", "collect")}
