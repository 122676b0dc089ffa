"""The figures as tables: of text, for whoever waits for them, and of Markdown, as docs/BESIDE.md has them. All are in µs."""

CLIENTS = ("radclock", "plain", "chrony")
KINDS = ("radclock", "chrony frequency", "chrony", "radclock absolute")


def size(value):
    return f"{value:.0f}" if value >= 100 else f"{value:.1f}" if value >= 10 else f"{value:.2f}"


def text(cases):
    """A line for each case and clock."""
    heads = "".join(f"{word:>{width}}" for word, width in (("median", 9), ("95 %", 9), ("99 %", 9), ("greatest", 10), ("signed", 9)))
    yield f"{'case':8}{'clock':10}{heads}{'bound':>9}{'outside':>16}   over 1, 10, 60 s"
    for name, case in cases.items():
        for client, figure in case.get("time", {}).items():
            error, bound = figure["error_us"], figure["bound_us"]
            spans = [case["differences_us"][span] for span in case["differences_us"]]
            over = ", ".join(size(s[client]["median"]) if s else "-" for s in spans)
            sizes = "".join(f"{size(error[key]):>{width}}" for key, width in (("median", 9), ("95%", 9), ("99%", 9), ("greatest", 10)))
            yield (f"{name:8}{client:10}{sizes}{error['signed median']:>+9.1f}{size(bound['median']):>9}"
                   f"{bound['outside']:>7} of {case['readings']:<5}   {over}")


def of_times(cases):
    yield "| Case | Readings | radclock: median, 95 %, 99 %, greatest | `--plain` | chrony | Bound, median: radclock, chrony | Outside |"
    yield "|---|---|---|---|---|---|---|"
    for name, case in cases.items():
        told = case["time"]
        sizes = [", ".join(size(told[client]["error_us"][key]) for key in ("median", "95%", "99%", "greatest")) for client in CLIENTS]
        bounds, outside = ([told[client]["bound_us"][key] for client in ("radclock", "chrony")] for key in ("median", "outside"))
        yield (f"| {name} | {case['readings']:,} | {' | '.join(sizes)} | {bounds[0]:,.0f}, {bounds[1]:,.0f} "
               f"| {outside[0]}, {outside[1]} |")


def of_differences(cases):
    yield ("| Case | Over | radclock's difference clock | its bound | chrony, by the frequency of its log | chrony, times served "
           "| radclock, two absolute times |")
    yield "|---|---|---|---|---|---|---|"
    for name, case in cases.items():
        for span, told in case["differences_us"].items():
            if told is None:
                continue
            sizes = [" / ".join(size(told[kind][key]) for key in ("median", "95%")) if kind in told else "-" for kind in KINDS]
            bound = told["radclock"]["bound"]
            outside = f", {bound['outside']} outside" if bound["outside"] else ""
            yield f"| {name} | {span} s | {sizes[0]} | {size(bound['median'])}{outside} | {' | '.join(sizes[1:])} |"


def markdown(cases):
    there = {name: case for name, case in cases.items() if case["readings"]}
    return "\n".join([*of_times(there), "", *of_differences(there), ""])
