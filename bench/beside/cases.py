"""The cases: what the proxies do to the datagrams, how often each clock asks, and what time the server has."""
import math
from collections import namedtuple

# Delays in us: what each way takes at least, then the shape and the mean of the queues (a gamma law), their mean in a burst, and how
# many of all datagrams are lost. `every` is the spacing of collect in ms, `poll` that of chronyd, from and to, as powers of 2 s. `drift`
# is by how many ppm the server is fast, how many it swings beside, and over how many seconds.
Case = namedtuple("Case", "what seed out back shape mean burst loss every poll drift")

BASE = Case("queues of 0.3 ms in the mean, bursts of 5 ms, 1 % lost", 1, 1000, 1000, 1, 300, 5000, 0.01, 1000, (0, 0), None)
CASES = {
    "base": BASE,
    "calm": BASE._replace(what="no queues, nothing lost", mean=0, burst=0, loss=0),
    "peaked": BASE._replace(what="queues mostly empty, of the same mean", seed=4, shape=0.4),
    "round": BASE._replace(what="queues seldom empty, of the same mean", seed=5, shape=3),
    "swing": BASE._replace(what="a server 30 ppm fast that swings by 0.1 ppm in 20 minutes", seed=6, drift=(30, 0.1, 1200)),
    "slow": BASE._replace(what="an exchange each 16 s, chronyd each 16 to 64 s", seed=3, every=16000, poll=(4, 6)),
    "asym": BASE._replace(what="the way out 0.4 ms longer", seed=2, out=1400),
}


def law_words(case, start):
    """The law as the proxy reads it, for a server that was right at the second `start`."""
    words = [f"{name}={getattr(case, name)}" for name in ("seed", "out", "back", "shape", "mean", "burst", "loss")]
    if case.drift:
        words += [f"from={start}", *(f"{name}={value}" for name, value in zip(("ppm", "swing", "over"), case.drift))]
    return words


def ahead(case, start, nanos):
    """By how many ns the server is ahead of the system clock at a time of it. The same stands in draws.c."""
    if not case.drift:
        return 0.0
    ppm, swing, over = case.drift
    seconds, turn = (nanos - start * 10**9) / 1e9, 2 * math.pi / over
    return 1000 * (ppm * seconds + swing / turn * math.sin(turn * seconds))


def asymmetry(case):
    """By how many us both clocks are off, where they take both ways for equally long. Above 0 the clock is ahead."""
    return (case.out - case.back) / 2
