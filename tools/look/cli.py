"""The words of the command, and what is done for them."""
import argparse
import os
import re
import subprocess
import sys

import moments
import stamp
import summary
import watch
from exchanges import read_exchanges
from frequency import warning
from journal import Journal
from report import Wrong, number, read_report

LOOK = os.path.join(os.path.dirname(os.path.abspath(__file__)), "look")
DEBIAN_PYTHON, DEBIAN_PACKAGES = "/usr/bin/python3", "/usr/lib/python3/dist-packages"
LEFT = 1  # the status where the journal does not reach a count, too


class Parser(argparse.ArgumentParser):
    def error(self, message):
        raise Wrong(message)


def count(word):
    try:
        value = number(word)
    except Wrong as wrong:
        raise argparse.ArgumentTypeError(str(wrong)) from None
    if value >= stamp.COUNTS:
        raise argparse.ArgumentTypeError(f"{word} is no count: it is 2^62 or more")
    return value


def between(least, most):
    """What reads a number in this range."""
    def value(word):
        if not re.fullmatch("[0-9]{1,10}", word) or not least <= int(word) <= most:
            raise argparse.ArgumentTypeError(f"{word} is no number from {least} to {most}")
        return int(word)

    return value


def parser():
    words = Parser(prog="look", description="Shows what a report of radclock says.")
    commands = words.add_subparsers(dest="command", required=True, parser_class=Parser)

    def add(name, run, what, reports="a file with a report (standard input)"):
        command = commands.add_parser(name, help=what, description=what)
        command.add_argument("-f", dest="reports", action="append", metavar="REPORT", help=reports)
        command.set_defaults(run=run)
        return command

    command = add("summary", run_summary, "where the daemon and the clock stand")
    command.add_argument("--exchanges", metavar="FILE", help="the stamp file, with the system's clock in comments")
    command = commands.add_parser("watch", help="the summary of a file that grows, every few seconds")
    command.add_argument("--every", type=between(1, 3600), default=5, metavar="SECONDS", help="how long a round takes (5)")
    command.add_argument("--rounds", type=between(0, 10**9), default=0, metavar="N", help="how many rounds (0, without end)")
    command.add_argument("--program", metavar="PATH", default=os.environ.get("RADCLOCK", watch.PROGRAM), help="the program radclock")
    command.add_argument("--collect", metavar="PATH", default=os.environ.get("COLLECT", watch.COLLECT), help="the program collect")
    command.add_argument("file", metavar="FILE")
    command.set_defaults(run=run_watch)
    command = add("at", run_at, "what the clocks read at counts")
    command.add_argument("--beyond", action="store_true", help="counts behind the journal too, by its last tick")
    command.add_argument("--counts", metavar="FILE", help="a file with more counts, - for standard input")
    command.add_argument("counted", nargs="*", type=count, metavar="COUNT")
    command = add("stamp", run_stamp, "times for the counts of a text, which is read from standard input",
                  "a file with a report (what stands before the text)")
    command.add_argument("-c", dest="column", type=between(1, 1000), metavar="COLUMN", help="where the count stands (the first number)")
    command.add_argument("--exact", action="store_true", help="times as reports write them, and not dates")
    command.add_argument("--from-zero", action="store_true", help="counts before the first time too, by the clock that began at zero")
    command.add_argument("--beyond", action="store_true", help="counts behind the journal too, by its last tick")
    command = add("plot", run_plot, "pictures of reports of the same stamps", "may be given for several reports (standard input)")
    command.add_argument("picture", metavar="FILE", help="ends with .svg or .png")
    return words


def text_of(path):
    try:
        with open(path, "rb") if path != "-" else sys.stdin.buffer as file:
            return file.read()
    except OSError as error:
        raise Wrong(f"{path}: {error.strerror}") from None


def report_in(read):
    try:
        return read_report(read.decode("ascii"))
    except UnicodeDecodeError:
        raise Wrong("no report: it has bytes that are no text") from None


def report_of(path):
    read = text_of(path)
    try:
        return report_in(read)
    except Wrong as wrong:
        raise Wrong(f"{path}: {wrong}" if path != "-" else str(wrong)) from None


def reports_of(chosen):
    return [report_of(path) for path in chosen.reports or ["-"]]


def only_path(chosen):
    """Where the one report is that a command reads."""
    if chosen.reports and len(chosen.reports) > 1:
        raise Wrong(f"`{chosen.command}` reads one report")
    return chosen.reports[0] if chosen.reports else "-"


def tell(lines):
    print("\n".join(lines), flush=True)


def say(line):
    print(f"look: {line}", file=sys.stderr, flush=True)


def run_summary(chosen):
    path = only_path(chosen)
    if path == chosen.exchanges == "-":
        raise Wrong("standard input has the report: give the exchanges as a file")
    report = report_of(path)
    exchanges = read_exchanges(text_of(chosen.exchanges).decode("ascii", "replace")) if chosen.exchanges else None
    tell(summary.lines(report, exchanges))
    return 0


def run_watch(chosen):
    try:
        watch.watch(chosen.file, chosen.program, chosen.collect, chosen.every, chosen.rounds)
    except KeyboardInterrupt:
        print()
    return 0


def counts_of(chosen):
    """Counts of the command line, and those of a file. Where neither is given, standard input has them."""
    path = chosen.counts if chosen.counts or chosen.counted else "-"
    if path == "-" and only_path(chosen) == "-":
        raise Wrong("standard input has the report: give counts, or a file with counts, or the report by -f")
    words = text_of(path).decode("ascii", "replace").split() if path else []
    try:
        return chosen.counted + [count(word) for word in words]
    except argparse.ArgumentTypeError as error:
        raise Wrong(str(error)) from None


def run_at(chosen):
    counts = counts_of(chosen)
    lines, all_reached = moments.lines(report_of(only_path(chosen)), counts, chosen.beyond)
    tell(lines)
    return 0 if all_reached else LEFT


def report_before(text):
    """The report that stands before a text, up to its end line."""
    lines = []
    for line in text:
        lines.append(line)
        if line.startswith((b"end ", b"fault ")):
            break
    return report_in(b"".join(lines))


def run_stamp(chosen):
    text = sys.stdin.buffer
    path = only_path(chosen)
    report = report_of(path) if path != "-" else report_before(text)
    journal = Journal(report, chosen.from_zero)
    wrong = warning(journal.ticks, report.frequency)
    if wrong:
        say(f"WARNING: {wrong}")
    stamper = stamp.Stamper(journal, report.frequency, stamp.EXACT if chosen.exact else stamp.DATES, chosen.beyond)
    find = stamp.column(chosen.column).match if chosen.column else stamp.FIRST_NUMBER.search
    sys.stdout.buffer.writelines(stamper.lines(text, find))
    sys.stdout.buffer.flush()
    left = stamper.left()
    if left:
        say(left)
    return LEFT if left else 0


def other_python():
    """The Python that Debian's matplotlib is for, if that is not this one."""
    there = os.path.exists(os.path.join(DEBIAN_PACKAGES, "matplotlib")) and os.access(DEBIAN_PYTHON, os.X_OK)
    return DEBIAN_PYTHON if there and os.path.realpath(sys.executable) != os.path.realpath(DEBIAN_PYTHON) else None


def run_plot(chosen):
    try:
        import plot  # only this needs matplotlib
    except Wrong:
        python = other_python()
        if not python:
            raise
        return subprocess.run([python, LOOK, *chosen.words], check=False).returncode
    plot.draw(reports_of(chosen), chosen.picture)
    return 0


def main(words):
    try:
        chosen = parser().parse_args(words)
        chosen.words = words
        return chosen.run(chosen)
    except Wrong as wrong:
        say(wrong)
        return 1
    except BrokenPipeError:
        os.dup2(os.open(os.devnull, os.O_WRONLY), sys.stdout.fileno())
        return 1
    except OSError as error:
        say(f"the output cannot be written: {error.strerror}")
        return 1
