"""The command: a run, its figures, a table of them, and two pictures."""
import argparse
import csv
import json
import os
import signal
import subprocess
import sys
from datetime import datetime

import changed
import figures
import machine
import needs
import rules
import run
import tables
from cases import CASES
from children import Fault, priority
from clocks import NANOS, Series, read_probe
from truth import Line, asking, beside_the_proxy, exchanges, late, passed

PROGRAM = os.environ.get("RADCLOCK", os.path.join(needs.TOP, "crates", "radclock", "out", "radclock"))
SKIP = 300  # s that the figures leave out, while all clocks warm up; a third of a run that is shorter than three times that


def say(line):
    print(f"beside: {line}", file=sys.stderr, flush=True)


def minutes(word):
    value = float(word)
    if not 0.1 <= value <= 1000:
        raise argparse.ArgumentTypeError("is from 0.1 to 1000")
    return value


def parser():
    words = argparse.ArgumentParser(prog="beside", description="Runs radclock's collect and chronyd side by side over the same delays, "
                                    "and tells how far each was from the truth. See README.md.")
    words.add_argument("minutes", type=minutes, metavar="MINUTES")
    words.add_argument("cases", nargs="*", metavar="CASE", help=f"of {', '.join(CASES)}; all of them where none is named")
    words.add_argument("--folder", help="where all of it is written (bench/beside/out/DATE-TIME)")
    words.add_argument("--program", default=PROGRAM, help="radclock ($RADCLOCK, or where `make build` puts it)")
    words.add_argument("--port", type=int, default=43100, help="the first port of 127.0.0.1 (43100)")
    words.add_argument("--ordinary", action="store_true", help="all programs at the ordinary priority")
    words.add_argument("--changed", action="store_true", help="also what the clock would be with one rule of the daemon changed")
    words.add_argument("--again", action="store_true", help="no run: the figures of the one in FOLDER once more")
    return words


def chosen_of(words):
    chosen = parser().parse_args(words)
    for name in chosen.cases:
        if name not in CASES:
            raise Fault(f"there is no case `{name}`; there are {', '.join(CASES)}")
    if chosen.again and not chosen.folder:
        raise Fault("--again wants --folder")
    if not os.access(chosen.program, os.X_OK):
        raise Fault(f"there is no program {chosen.program}: `make build` makes it, or name one by --program")
    chosen.cases = list(dict.fromkeys(chosen.cases)) or list(CASES)
    chosen.folder = os.path.abspath(chosen.folder or os.path.join(needs.BUILT, datetime.now().strftime("%Y%m%d-%H%M%S")))
    return chosen


def write_readings(path, series, begin):
    """Each reading in µs, for the picture."""
    clients = list(series.readings)
    with open(path, "w", newline="") as file:
        rows = csv.writer(file)
        rows.writerow(["second", *(name for client in clients for name in (client, f"{client} bound"))])
        for i, truth in enumerate(series.moments):
            told = [series.readings[client][i] for client in clients]
            rows.writerow([f"{(truth.nanos - begin) / NANOS:.2f}", *(f"{v / 1000:.3f}" for r in told for v in (r.error, r.bound))])


def figures_of(folder, program, with_changes):
    """All figures of the run in FOLDER."""
    with open(f"{folder}/run.json") as file:
        told = json.load(file)
    moments = read_probe(f"{folder}/probe.txt")
    skip = min(SKIP, told["seconds"] // 3)
    steering = told["steering"]
    told["left_out_s"] = skip
    line = Line(moments)
    told["truth"] = {"free": machine.is_free(steering["before"], steering["after"]), **line.told(moments),
                     "asking_us": asking(moments, told["server"])}
    told["program"] = machine.checksum(program)
    cases = {}
    for name in told["cases"]:
        home, series = f"{folder}/{name}", Series(folder, name, told, moments, program)
        cases[name] = {"what": CASES[name].what, **figures.case_figures(series, skip), "rules": {}, "ways": {}}
        write_readings(f"{home}/readings.csv", series, moments[0].nanos)
        for client in ("radclock", "plain") if series.moments else ():
            cases[name]["rules"][client] = rules.at_work(series.clocks[client], series.readings[client], series.moments)
            cases[name]["ways"][client] = ways_of(f"{home}/{client}", CASES[name], line, told["start"])
        if with_changes and series.moments:
            cases[name]["changed_us"] = changed.all_changed(series, list(exchanges(f"{home}/radclock.txt")))
    return {**told, "cases": cases}


def ways_of(stem, case, line, start):
    """What collect told at its end, how late its proxy was, and what the machine added to its ways."""
    ways = passed(f"{stem}.proxy")
    with open(f"{stem}.err") as file:
        said = file.read().strip().split("\n")[-3:]
    return {"collect said": said, "proxy late_us": late(ways),
            "beside the proxy_us": beside_the_proxy(exchanges(f"{stem}.txt"), ways, line, case, start)}


def stop_by_signal(number, _):
    raise SystemExit(128 + number)


def measure(chosen):
    lines = needs.missing()
    if lines:
        raise Fault("wants what is not here: " + "; ".join(lines))
    for number in (signal.SIGTERM, signal.SIGHUP):
        signal.signal(number, stop_by_signal)
    say(f"{chosen.minutes:g} minutes of {', '.join(chosen.cases)}, into {chosen.folder}")
    run.go(chosen.folder, chosen.cases, round(chosen.minutes * 60), chosen.port, [] if chosen.ordinary else priority())


def main(words):
    try:
        chosen = chosen_of(words)
        if not chosen.again:
            measure(chosen)
        told = figures_of(chosen.folder, chosen.program, chosen.changed)
        with open(f"{chosen.folder}/figures.json", "w") as file:
            json.dump(told, file, indent=1)
        with open(f"{chosen.folder}/tables.md", "w") as file:
            file.write(tables.markdown(told["cases"]))
        print("\n".join(tables.text(told["cases"])))
        if not told["truth"]["free"]:
            say("WARNING: somebody steers the system clock, so it is no truth; see `steering` in figures.json")
        python = needs.python_with_pictures()
        if not python:
            raise Fault("no matplotlib, so there are no pictures")
        return subprocess.run([python, os.path.join(needs.HERE, "pictures.py"), chosen.folder]).returncode
    except (Fault, OSError) as fault:
        say(fault)
        return 1
    except KeyboardInterrupt:
        say("stopped, and so is all that it started")
        return 130
