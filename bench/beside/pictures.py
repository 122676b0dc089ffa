"""Two pictures of a run: the error of the time over the run, and the errors of differences. FOLDER is what `beside` wrote."""
import csv
import json
import os
import sys

import matplotlib

matplotlib.use("agg")
from matplotlib import pyplot  # noqa: E402

BLUE, ORANGE, GREY, GREEN = "#2166ac", "#e08214", "#888888", "#1b7837"
BANDS = {"radclock": "#d1e5f0", "chrony": "#fee0b6"}
STYLE = {"svg.fonttype": "none", "svg.hashsalt": "beside", "font.family": "DejaVu Sans", "font.size": 9, "axes.spines.top": False,
         "axes.spines.right": False, "axes.grid": True, "grid.color": "#e6e6e6", "legend.frameon": False, "legend.fontsize": 8,
         "axes.titlesize": 10, "axes.titlelocation": "left", "axes.axisbelow": True}
COLOURS = {"radclock": BLUE, "chrony": ORANGE, "plain": GREY}
BARS = (("radclock", "radclock, difference clock", BLUE), ("chrony frequency", "chrony, by the frequency of its log", "#fdb863"),
        ("chrony", "chrony, time it serves", ORANGE))
MOST_CASES = 3  # drawn over the run; of more the picture would be too long
SPANS = ("1", "10", "60")
LEAST = 0.003  # µs: where the bars begin


def columns(path):
    """The readings of a case: each column as a list of numbers."""
    with open(path) as file:
        rows = list(csv.DictReader(file))
    return {name: [float(row[name]) for row in rows] for name in rows[0]}


def draw_error(axes, name, what, told):
    """How far both clocks were from the truth at each reading. The few that were far off are outside of the picture."""
    for client in ("chrony", "radclock"):
        axes.plot(told["second"], told[client], ".", ms=2, color=COLOURS[client], label=client, rasterized=True)
    far = sorted(abs(e) for client in ("radclock", "chrony") for e in told[client])
    top = far[int(0.995 * (len(far) - 1))] * 1.15
    axes.set(title=f"{name}: {what}", ylabel="µs from the truth", ylim=(-top, top))
    axes.axhline(0, color="black", lw=0.6)
    axes.margins(x=0.01)


def draw_bounds(axes, told):
    """The same with the bounds, which are far wider."""
    for client in ("radclock", "chrony"):
        for sign in (1, -1):
            axes.plot(told["second"], [sign * b for b in told[f"{client} bound"]], lw=0.8, color=COLOURS[client],
                      label=f"{client}'s bound" if sign > 0 else None)
    for client in ("chrony", "radclock"):
        axes.plot(told["second"], told[client], ".", ms=2, color=COLOURS[client], rasterized=True)
    axes.set_title("the same with the bounds")
    top = 1.5 * max(told["radclock bound"])
    axes.set_ylim(-top, top)
    axes.margins(x=0.01)


def over_the_run(folder, figures, names):
    with matplotlib.rc_context(STYLE):
        figure, grid = pyplot.subplots(len(names), 2, figsize=(10, 2.5 * len(names)), sharex=True, squeeze=False, layout="constrained")
        for name, (left, right) in zip(names, grid):
            told = columns(os.path.join(folder, name, "readings.csv"))
            draw_error(left, name, figures["cases"][name]["what"], told)
            draw_bounds(right, told)
        for axes in grid[-1]:
            axes.set_xlabel("seconds of the run")
        grid[0][0].legend(loc="upper right", ncols=2, markerscale=4)
        grid[0][1].legend(loc="upper right", ncols=2)
        save(figure, folder, "time")


def of_differences(folder, figures, names):
    with matplotlib.rc_context(STYLE):
        figure, grid = pyplot.subplots(1, len(SPANS), figsize=(10, 3.6), sharey=True, layout="constrained")
        for span, axes in zip(SPANS, grid):
            for i, (kind, label, colour) in enumerate(BARS):
                draw_bars(axes, [figures["cases"][name]["differences_us"][span] for name in names], kind, label, colour, i)
            axes.set_yscale("log")
            axes.yaxis.set_major_formatter("{x:g}")
            axes.set_xticks(range(len(names)), names, rotation=40)
            axes.set_title(f"over {span} s")
            axes.grid(axis="x", visible=False)
        shown = [told for name in names for told in figures["cases"][name]["differences_us"].values() if told]
        top = max((told[kind]["95%"] for told in shown for kind, _, _ in BARS if kind in told), default=1)
        grid[0].set_ylim(LEAST, 2 * max(top, 1))
        grid[0].set_ylabel("error in µs: bar the median, line to 95 %")
        figure.legend(*grid[0].get_legend_handles_labels(), loc="upper center", bbox_to_anchor=(0.5, 0), ncols=len(BARS))
        save(figure, folder, "differences")


def draw_bars(axes, told, kind, label, colour, place):
    """A bar for each case: the median error, and a line from there to that of 95 %."""
    width = 0.8 / len(BARS)
    there = [(case + (place - 1) * width, t[kind]) for case, t in enumerate(told) if t and kind in t]
    xs = [x for x, _ in there]
    medians = [t["median"] for _, t in there]
    axes.bar(xs, medians, width, color=colour, label=label)
    axes.vlines(xs, medians, [t["95%"] for _, t in there], color="black", lw=0.8)


def save(figure, folder, name):
    figure.savefig(os.path.join(folder, f"{name}.svg"), bbox_inches="tight", dpi=150, metadata={"Date": None})
    figure.savefig(os.path.join(folder, f"{name}.png"), bbox_inches="tight", dpi=110)
    pyplot.close(figure)


def main(folder):
    with open(os.path.join(folder, "figures.json")) as file:
        figures = json.load(file)
    names = [name for name, case in figures["cases"].items() if case["readings"]]
    over_the_run(folder, figures, [name for name in ("calm", "base", "round", *names) if name in names][:MOST_CASES])
    of_differences(folder, figures, names)


if __name__ == "__main__":
    main(*sys.argv[1:])
