"""The run: a server, and for each case three clients of it with a proxy each, all asked for the time once a second."""
import json
import os
import time

import machine
import needs
from cases import CASES, law_words
from children import Children, Fault

CLIENTS = ("radclock", "plain", "chrony")  # collect by the kernel's stamps, collect --plain, chronyd
WITHOUT_CLOCK = ("--bounding-set=-sys_time", "--inh-caps=-sys_time")
MOST_EXCHANGES = 65536
APART = 0.044  # s between the starts of two clients: 21 of them ask at as many places of a second, and not all at once
PORTS_OF_A_CASE = 4  # three proxies, and chronyd


class Run:
    """What is started, and where it writes."""

    def __init__(self, folder, names, seconds, first_port, children):
        self.folder, self.names, self.seconds, self.children = folder, names, seconds, children
        self.server_port = first_port
        self.ports = {name: first_port + 1 + PORTS_OF_A_CASE * i for i, name in enumerate(names)}
        self.programs = needs.build()
        self.start_second = None

    def home(self, *names):
        path = os.path.join(self.folder, *names)
        os.makedirs(path, exist_ok=True)
        return path

    def start_chronyd(self, home, port, lines):
        """With -x it never steers the system clock, and without the right to it could not."""
        os.chmod(home, 0o750)
        lines = [*lines, f"port {port}", "bindaddress 127.0.0.1", "allow 127.0.0.1", "cmdport 0", f"bindcmdaddress {home}/socket",
                 f"pidfile {home}/pid", f"logdir {home}"]
        with open(f"{home}/conf", "w") as conf:
            conf.write("\n".join(lines) + "\n")
        words = [needs.path_of("chronyd"), "-x", "-d", "-u", "root", "-f", f"{home}/conf"]
        return self.children.start(words, f"{home}/out", f"{home}/err", WITHOUT_CLOCK)

    def start_proxies(self, name):
        home, port = self.home(name), self.ports[name]
        for i, client in enumerate(CLIENTS):
            law = law_words(CASES[name], self.start_second)
            words = [self.programs["proxy"], port + i, self.server_port, f"{home}/{client}.proxy", *law]
            self.children.start(words, os.devnull, f"{home}/{client}.proxy.err")

    def start_clients(self, name):
        case, home, port = CASES[name], self.home(name), self.ports[name]
        tries = min(self.seconds * 1000 // case.every + 100, MOST_EXCHANGES)
        for i, options in enumerate(([], ["--plain"])):
            words = [self.programs["collect"], *options, "-q", "-p", port + i, "-n", tries, "-i", case.every, "-w", 900, "127.0.0.1"]
            self.children.start(words, f"{home}/{CLIENTS[i]}.txt", f"{home}/{CLIENTS[i]}.err")
            time.sleep(APART)
        lines = [f"server 127.0.0.1 port {port + 2} minpoll {case.poll[0]} maxpoll {case.poll[1]}", "log tracking"]
        self.start_chronyd(self.home(name, "chrony"), port + 3, lines)

    def chrony_port(self, name):
        return self.ports[name] + 3

    def start_all(self):
        self.start_chronyd(self.home("server"), self.server_port, ["local stratum 1"])
        time.sleep(1)
        self.start_second = int(time.time())
        for name in self.names:
            self.start_proxies(name)
        time.sleep(0.5)
        for name in self.names:
            self.start_clients(name)
            time.sleep(APART)
        asked = [self.server_port, *map(self.chrony_port, self.names)]
        probe = [self.programs["probe"], self.seconds, *asked]
        return self.children.start(probe, f"{self.folder}/probe.txt", f"{self.folder}/probe.err")


def watch(children, probe, loads):
    """Until the probe ends. What ends before it is a fault."""
    next_load = time.monotonic()
    while probe.poll() is None:
        children.check(but=probe)
        if time.monotonic() >= next_load:
            loads.append(machine.load())
            next_load += 30
        time.sleep(0.2)
    if probe.returncode:
        raise Fault(f"the probe ended with {probe.returncode}")


def go(folder, names, seconds, first_port, before):
    """One run, its programs started by the words `before`. What it was stands in FOLDER/run.json when it is over."""
    os.makedirs(folder, exist_ok=True)
    told = {"date": machine.date(), "seconds": seconds, "cases": names, "machine": machine.facts(),
            "priority": " ".join(before) or "ordinary", "chronyd": machine.first_line([needs.path_of("chronyd"), "-v"]),
            "load": {"before": machine.load(), "during": []}, "steering": {"before": machine.steering()}}
    with Children(before) as children:
        run = Run(folder, names, seconds, first_port, children)
        watch(children, run.start_all(), told["load"]["during"])
    told["steering"]["after"] = machine.steering()
    told["load"]["after"] = machine.load()
    told["start"] = run.start_second
    told["server"] = run.server_port
    told["ports"] = {name: run.chrony_port(name) for name in names}
    with open(f"{folder}/run.json", "w") as file:
        json.dump(told, file, indent=1)
