"""Tests of `collect` against a server of their own: make && python3 -m unittest, in this folder."""
import os
import queue
import re
import signal
import socket
import struct
import subprocess
import tempfile
import threading
import time
import unittest

HERE = os.path.dirname(os.path.abspath(__file__))
PROGRAM = os.path.join(HERE, "collect")
NTP = 2208988800  # from 1900 to 1970, in seconds


def reply(request, first=4 << 3 | 4, stratum=2, origin=None, came=(1700000000, 0), left=(1700000000, 1 << 31), code=b"TEST"):
    """A reply whose times are seconds since 1970 and a fraction in 2^-32 s."""
    times = [(seconds + NTP) % 2**32 if seconds is not None else 0 for seconds, _ in (came, left)]
    head = struct.pack("!BBbb8x4s8x", first, stratum, 6, -20, code)
    return head + (origin or request[40:48]) + struct.pack("!IIII", times[0], came[1], times[1], left[1])


class Server(threading.Thread):
    """Answers request number i by the datagrams that `answers(i, request)` gives."""

    def __init__(self, answers):
        super().__init__(daemon=True)
        self.answers, self.requests = answers, []
        self.socket = socket.socket(socket.AF_INET, socket.SOCK_DGRAM)
        self.socket.bind(("127.0.0.1", 0))

    def run(self):
        while True:
            request, client = self.socket.recvfrom(1024)
            self.client = client
            self.requests.append(request)
            for datagram in self.answers(len(self.requests) - 1, request):
                self.socket.sendto(datagram, client)


def collect(answers, *words):
    server = Server(answers)
    server.start()
    port = str(server.socket.getsockname()[1])
    run = subprocess.run([PROGRAM, "-p", port, "-i", "100", *words, "127.0.0.1"], capture_output=True, text=True, timeout=60)
    return run, server.requests, [line for line in run.stdout.splitlines()[2:] if not line.startswith("#")]


class Collect(unittest.TestCase):
    def totals(self, run):
        return [int(n) for n in re.findall(r"\d+", run.stderr.splitlines()[-1])]

    def test_a_good_server(self):
        run, requests, stamps = collect(lambda i, request: [reply(request)], "-n", "3")
        self.assertEqual((run.returncode, self.totals(run)), (0, [3, 3, 0, 0, 0]))
        self.assertRegex(run.stdout, r"\Aradclock-stamps 2\nfreq [1-9][0-9]{6,10}\n# ")
        before = -1
        for stamp in stamps:
            sent, came, left, received, *said = stamp.split(" ")
            self.assertEqual((came, left), ("1700000000.000000000", "1700000000.500000000"))
            self.assertEqual(said, ["2", "0"])
            self.assertTrue(before < int(sent) < int(received) < 2**62)
            before = int(received)
        self.assertEqual(len({request[40:48] for request in requests}), 3)
        self.assertTrue(all(request[:40] == b"\x23" + bytes(39) for request in requests))

    def test_strata_and_leap_seconds(self):
        said = [(1, 0), (15, 1), (3, 2)]

        def answers(i, request):
            stratum, leap = said[i]
            return [reply(request, first=leap << 6 | 4 << 3 | 4, stratum=stratum)]

        run, _, stamps = collect(answers, "-n", "3")
        self.assertEqual([tuple(map(int, stamp.split(" ")[4:])) for stamp in stamps], said)
        run, _, stamps = collect(answers, "-n", "3", "-1")
        self.assertTrue(run.stdout.startswith("radclock-stamps 1\n"))
        self.assertEqual([len(stamp.split(" ")) for stamp in stamps], [4, 4, 4])

    def test_the_clock_as_a_counter(self):
        run, _, stamps = collect(lambda i, request: [reply(request)], "-n", "2", "-m")
        self.assertTrue(run.stdout.startswith("radclock-stamps 2\nfreq 1000000000\n"))
        first, second = (int(stamp.split(" ")[0]) for stamp in stamps)
        self.assertTrue(90_000_000 < second - first < 1_000_000_000)

    def test_foreign_and_lost(self):
        def answers(i, request):
            foreign = [reply(request, origin=bytes(8)), reply(request)[:47], reply(request, first=0x23), b""]
            return ([], foreign, foreign + [reply(request)], [reply(request)] * 2, [reply(request)])[i]

        run, _, stamps = collect(answers, "-n", "5")
        self.assertEqual((run.returncode, self.totals(run), len(stamps)), (0, [5, 3, 2, 9, 0], 3))

    def test_unusable(self):
        def answers(i, request):
            return [(reply(request, first=0xE4), reply(request, stratum=16), reply(request, came=(None, 0)),
                     reply(request, left=(None, 0)), reply(request))[i]]

        run, _, stamps = collect(answers, "-n", "5")
        self.assertEqual((self.totals(run), len(stamps)), ([5, 1, 0, 0, 4], 1))

    def test_a_refusal_ends_it(self):
        run, requests, _ = collect(lambda i, request: [reply(request, stratum=0, code=b"RATE")], "-n", "5")
        self.assertEqual((run.returncode, len(requests)), (1, 1))
        self.assertIn("refuses: RATE", run.stderr)

    def test_eras(self):
        end = 2**32 - NTP  # the first second of the next era
        times = [(end - 1, 2**32 - 1), (end, 1), (end + 1, 0), (0, 1), (2**31 - 1 + end, 0)]
        run, _, stamps = collect(lambda i, request: [reply(request, came=times[i], left=times[i])], "-n", "5", "-m")
        told = [stamp.split(" ")[1] for stamp in stamps]
        self.assertEqual(told, [f"{end - 1}.999999999", f"{end}.000000000", f"{end + 1}.000000000", "0.000000000",
                                f"{2**31 - 1 + end}.000000000"])
        self.assertEqual(self.totals(run), [5, 5, 0, 0, 0])

    def test_no_server(self):
        with socket.socket(socket.AF_INET, socket.SOCK_DGRAM) as unused:
            unused.bind(("127.0.0.1", 0))
            port = str(unused.getsockname()[1])
        run = subprocess.run([PROGRAM, "-p", port, "-n", "2", "-i", "100", "-m", "127.0.0.1"], capture_output=True, text=True)
        self.assertEqual((run.returncode, self.totals(run)), (1, [2, 0, 2, 0, 0]))

    def records(self, path):
        """The frequency of a capture, and count, direction and packet of each record."""
        with open(path, "rb") as file:
            text = file.read()
        self.assertEqual(text[:8], b"RADCAP01")
        records, place = [], 16
        while place < len(text):
            count, received, size = struct.unpack("!QBH", text[place:place + 11])
            records.append((count, received, text[place + 11:place + 11 + size]))
            place += 11 + size
        self.assertEqual(place, len(text))
        return int.from_bytes(text[8:16], "big"), records

    def test_a_capture(self):
        sent = []

        def answers(i, request):
            foreign = reply(request, origin=bytes(8))
            sent.append([[reply(request)], [foreign, b"short", reply(request) + b"more"], [], [reply(request, first=0xE4)]][i])
            return sent[i]

        with tempfile.TemporaryDirectory() as folder:
            path = os.path.join(folder, "packets.radcap")
            run, requests, stamps = collect(answers, "-n", "4", "-r", path)
            frequency, records = self.records(path)
            again, asked, _ = collect(answers, "-n", "1", "-r", path)
        self.assertEqual((run.returncode, self.totals(run)), (0, [4, 2, 1, 2, 1]))
        self.assertEqual(run.stdout.splitlines()[1], f"freq {frequency}")
        said = [(received, packet) for _, received, packet in records]
        due = []
        for request, datagrams in zip(requests, sent):
            due += [(0, request)] + [(1, datagram) for datagram in datagrams if len(datagram) >= 48]
        self.assertEqual(said, due)
        counts = [str(count) for count, *_ in records]
        first, second = (stamp.split(" ") for stamp in stamps)
        self.assertEqual((counts[0], counts[1], counts[2], counts[4]), (first[0], first[3], second[0], second[3]))
        self.assertEqual((again.returncode, asked), (1, []))

    def test_words(self):
        for words in ([], ["a", "b"], ["-n", "0", "a"], ["-n", "65537", "a"], ["-i", "99", "a"], ["-w", "x", "a"], ["-x", "a"]):
            run = subprocess.run([PROGRAM, *words], capture_output=True, text=True)
            self.assertEqual((run.returncode, run.stdout), (2, ""))

    def test_no_room(self):
        server = Server(lambda i, request: [reply(request)])
        server.start()
        words = ["-p", str(server.socket.getsockname()[1]), "-n", "3", "-i", "100", "-m", "127.0.0.1"]
        with open("/dev/full", "w") as full:
            run = subprocess.run([PROGRAM, *words], stdout=full, stderr=subprocess.PIPE, text=True)
        self.assertEqual(run.returncode, 1)
        self.assertIn("cannot be written", run.stderr)


def start(server, *words, **more):
    words = [PROGRAM, "-p", str(server.socket.getsockname()[1]), "-i", "100", *words, "127.0.0.1"]
    return subprocess.Popen(words, stdout=subprocess.PIPE, stderr=subprocess.PIPE, text=True, **more)


def raw():
    return time.clock_gettime_ns(time.CLOCK_MONOTONIC_RAW)


def pairs(text):
    """Of each stamp line its pieces, with the system's time in the comment right before it in ns."""
    lines = text.splitlines()
    found = []
    for before, line in zip(lines, lines[1:]):
        if line[0].isdigit():
            found.append((int(before.removeprefix("# system ").replace(".", "")), line.split(" ")))
    return found


class Speech(unittest.TestCase):
    def test_the_systems_clock_beside(self):
        for words in ([], ["--plain"]):
            began = time.time_ns()
            run, _, stamps = collect(lambda i, request: [reply(request)], "-n", "3", "-m", *words)
            found = pairs(run.stdout)
            self.assertEqual([" ".join(pieces) for _, pieces in found], stamps)
            self.assertTrue(began < found[0][0] and found[-1][0] < time.time_ns())
            self.assertEqual(len(re.findall(r"^# system \d+\.\d{9}$", run.stdout, re.M)), 3)
            gaps = [(time1 - time0) - (int(p1[3]) - int(p0[3])) for (time0, p0), (time1, p1) in zip(found, found[1:])]
            self.assertTrue(all(abs(gap) < 5_000_000 for gap in gaps), gaps)

    def test_how_it_goes(self):
        words = ("-n", "14", "-e", "1")
        run, _, _ = collect(lambda i, request: [reply(request)], *words)
        self.assertEqual(len(re.findall(r"after 1 s: \d+ sent, \d+ written, 0 lost; round trip \d+\.\d us", run.stderr)), 1)
        run, _, _ = collect(lambda i, request: [reply(request)], "-q", *words)
        self.assertNotIn("after", run.stderr)

    def test_three_losses_in_a_row(self):
        for lost, told in (((0, 1, 3, 4), 0), ((1, 2, 3, 4, 5, 7, 8, 9), 1)):
            run, _, _ = collect(lambda i, request: [] if i in lost else [reply(request)], "-n", "11")
            self.assertEqual(run.stderr.count("three requests in a row"), told)

    def test_a_port_where_nobody_is(self):
        with socket.socket(socket.AF_INET, socket.SOCK_DGRAM) as unused:
            unused.bind(("127.0.0.1", 0))
            port = str(unused.getsockname()[1])
        run = subprocess.run([PROGRAM, "-p", port, "-n", "5", "-i", "100", "-m", "127.0.0.1"], capture_output=True, text=True)
        self.assertEqual(run.stderr.count(f"nobody is at port {port} of 127.0.0.1"), 1)
        self.assertNotIn("three requests", run.stderr)

    def test_an_end_by_a_signal(self):
        for ends in (signal.SIGINT, signal.SIGTERM):
            enough = threading.Event()
            server = Server(lambda i, request: [reply(request)] if i < 2 else (enough.set() or [reply(request)]))
            server.start()
            program = start(server, "-n", "60000", "-m")
            self.assertTrue(enough.wait(30))
            program.send_signal(ends)
            out, err = program.communicate(timeout=30)
            self.assertEqual(program.returncode, 0)
            written = len(pairs(out))
            self.assertGreaterEqual(written, 3)
            self.assertIn(f"{written} sent, {written} written, 0 lost", err.splitlines()[-1])


class GoingOn(unittest.TestCase):
    def setUp(self):
        folder = tempfile.TemporaryDirectory()
        self.addCleanup(folder.cleanup)
        self.path = os.path.join(folder.name, "exchanges.txt")

    def first(self, *words):
        run, _, _ = collect(lambda i, request: [reply(request)], "-n", "2", *words)
        with open(self.path, "w") as file:
            file.write(run.stdout)
        return run.stdout

    def again(self, *words):
        run, _, _ = collect(lambda i, request: [reply(request)], "-n", "2", "-a", self.path, *words)
        self.assertEqual(run.stdout, "")
        with open(self.path) as file:
            return run, file.read()

    def test_two_collections_are_one(self):
        for words in ([], ["-m"], ["-1"], ["-m", "--plain"]):
            before = self.first(*words)
            run, after = self.again(*words)
            self.assertEqual(run.returncode, 0, run.stderr)
            self.assertTrue(after.startswith(before))
            counts = [int(count) for _, pieces in pairs(after) for count in (pieces[0], pieces[3])]
            self.assertEqual((len(counts), counts), (8, sorted(set(counts))))
            self.assertEqual({len(pieces) for _, pieces in pairs(after)}, {4 if "-1" in words else 6})
            self.assertTrue(all(line[0] in "#123456789" for line in after[len(before):].splitlines()))

    def test_the_base_is_the_files(self):
        before = self.first("-m")
        kept = before.replace("# This", "# Each count is written less 1000.\n# This")
        with open(self.path, "w") as file:
            file.write(kept)
        low = raw() - 1000
        run, after = self.again("-m")
        count = int(pairs(after[len(kept):])[0][1][0])
        self.assertTrue(low < count < raw() - 1000)
        now = subprocess.run([PROGRAM, "--now", "-m", "-a", self.path], capture_output=True, text=True)
        self.assertTrue(count < int(now.stdout) < raw() - 1000)

    def test_what_cannot_go_on(self):
        whole = self.first("-m")
        boot = re.search(r"# This computer's start is (.*)\.\n", whole)
        cases = [("no stamp file", "", []), ("no stamp file", "radclock-stamps 3\nfreq 1000000000\n", []),
                 ("no stamp file", whole.replace("freq 1000000000", "freq 999999"), []),
                 ("no end", whole[:-1], []), ("version 2", whole, ["-1"]),
                 ("by which counter", whole.replace("# The counter", "# A counter"), []),
                 ("by which counter", whole.replace("CLOCK_MONOTONIC_RAW", "CLOCK_BOOTTIME"), []),
                 ("another counter", whole.replace("CLOCK_MONOTONIC_RAW, in ns", "the processor's"), []),
                 ("frequency", whole.replace("freq 1000000000", "freq 1000200000"), []),
                 ("which start", whole.replace(boot[0], ""), []),
                 ("started anew", whole.replace(boot[1], boot[1][::-1]), [])]
        for cause, text, words in cases:
            with open(self.path, "w") as file:
                file.write(text)
            run, after = self.again("-m", *words)
            self.assertEqual((run.returncode, after), (1, text), cause)
            self.assertRegex(run.stderr, f"cannot go on: .*{cause}")
        os.remove(self.path)
        run, _, _ = collect(lambda i, request: [], "-n", "1", "-m", "-a", self.path)
        self.assertEqual((run.returncode, os.path.exists(self.path)), (1, False))
        self.assertIn("cannot be opened: No such file", run.stderr)

    def test_now(self):
        low = raw()
        run = subprocess.run([PROGRAM, "--now", "-m"], capture_output=True, text=True)
        self.assertRegex(run.stdout, r"\A\d+\n\Z")
        self.assertTrue(low < int(run.stdout) < raw())
        before = int(pairs(self.first())[-1][1][3])
        run = subprocess.run([PROGRAM, "--now"], capture_output=True, text=True)
        _, after = self.again()
        self.assertTrue(before < int(run.stdout) < int(pairs(after)[-1][1][0]))
        for words in (["--now", "a"], ["--system"], ["--system", "127.0.0.1"]):
            self.assertEqual(subprocess.run([PROGRAM, *words], capture_output=True).returncode, 2)

    def test_now_beside_the_systems_clock(self):
        for words in ([], ["-m"]):
            low = raw(), time.time_ns()
            run = subprocess.run([PROGRAM, "--now", "--system", *words], capture_output=True, text=True)
            high = raw(), time.time_ns()
            found = re.fullmatch(r"(\d+) (\d+)\.(\d{9}) (\d+)\.(\d{9})\n", run.stdout)
            before, behind = int(found[2] + found[3]), int(found[4] + found[5])
            self.assertTrue(low[1] <= before <= behind <= high[1])
            if words:
                self.assertTrue(low[0] <= int(found[1]) <= high[0])
                self.assertLess(abs(before - low[1] - (int(found[1]) - low[0])), 10**8)


class Stamps(unittest.TestCase):
    """Counts by the system's stamps. The counter is one that the tests can read too."""

    @classmethod
    def setUpClass(cls):
        cls.folder = tempfile.TemporaryDirectory()
        cls.addClassCleanup(cls.folder.cleanup)
        cls.library = os.path.join(cls.folder.name, "meddle.so")
        subprocess.run(["cc", "-shared", "-fPIC", "-o", cls.library, os.path.join(HERE, "meddle.c"), "-ldl"], check=True)

    def run_meddled(self, what, *words):
        asked = []
        server = Server(lambda i, request: asked.append(raw()) or [reply(request)])
        server.start()
        program = start(server, "-n", "3", "-m", *words, env={**os.environ, "LD_PRELOAD": self.library, "MEDDLE": what})
        out, err = program.communicate(timeout=30)
        self.assertEqual(program.returncode, 0, err)
        told = {name: [int(n) for n in re.findall(r"\d+", line)] for name, line in re.findall(r"(requests|replies) by (.*)", err)}
        return [pieces for _, pieces in pairs(out)], asked, told

    def held_up(self, *words):
        """The program stands still from before the reply leaves the server until 30 ms behind it."""
        moments, programs = [], queue.Queue()

        def state(program):
            with open(f"/proc/{program.pid}/stat") as file:
                return file.read().rsplit(")", 1)[1].split()[0]

        def answers(i, request):
            program = programs.get()
            programs.put(program)
            program.send_signal(signal.SIGSTOP)
            while state(program) != "T":
                time.sleep(0.001)
            before = (raw(), time.time_ns())
            server.socket.sendto(reply(request), server.client)
            moments.append((before, (raw(), time.time_ns())))
            time.sleep(0.03)
            program.send_signal(signal.SIGCONT)
            return []

        server = Server(answers)
        server.start()
        program = start(server, "-n", "3", "-m", "-i", "300", *words)
        programs.put(program)
        out, err = program.communicate(timeout=30)
        self.assertEqual(program.returncode, 0, err)
        return list(zip(pairs(out), moments, strict=True))

    def test_a_reader_that_is_held_up(self):
        for (system, pieces), (before, after) in self.held_up():
            passed = 1_000_000  # a thousandth of what it was held up, with some more where the machine is busy
            self.assertTrue(before[0] <= int(pieces[3]) <= after[0] + passed)
            self.assertTrue(before[1] <= system <= after[1] + passed)
        for (_, pieces), (_, after) in self.held_up("--plain"):
            self.assertGreater(int(pieces[3]), after[0] + 29_000_000)

    def test_a_request_that_is_held_up(self):
        stamps, asked, told = self.run_meddled("hold")
        for pieces, came in zip(stamps, asked, strict=True):
            self.assertTrue(came - 15_000_000 < int(pieces[0]) < came)
        self.assertEqual((told["requests"], told["replies"]), ([3, 0, 0, 0, 0, 0], [3, 0, 0, 0, 0, 0]))
        stamps, asked, told = self.run_meddled("hold", "--plain")
        for pieces, came in zip(stamps, asked, strict=True):
            self.assertLess(int(pieces[0]), came - 20_000_000)
        self.assertEqual(told, {})

    def test_stamps_that_cannot_be(self):
        good, place = [3, 0, 0, 0, 0, 0], {"none": 2, "ahead": 3, "old": 4}
        for what, where in place.items():
            bad = [0, 3, *(3 * (n == where) for n in range(2, 6))]
            for sent in (False, True):
                stamps, asked, told = self.run_meddled(("sent-" if sent else "") + what)
                self.assertEqual(told, {"requests": bad if sent else good, "replies": good if sent else bad})
                self.assertTrue(all(int(p[0]) < came < int(p[3]) for p, came in zip(stamps, asked, strict=True)))

    def test_a_clock_that_is_set_forward(self):
        stamps, asked, told = self.run_meddled("forward")
        self.assertEqual(told, {"requests": [0, 3, 0, 0, 0, 3], "replies": [0, 3, 0, 0, 0, 3]})
        self.assertTrue(all(int(p[0]) < came < int(p[3]) for p, came in zip(stamps, asked, strict=True)))

    def test_the_head_says_how(self):
        for words, text in (([], "# Counts are moved to the system's stamps"), (["--plain"], "# Counts are those at the calls.")):
            run, _, _ = collect(lambda i, request: [reply(request)], "-n", "1", "-m", *words)
            self.assertEqual(run.stdout.count(text), 1)
            self.assertLess(run.stdout.index(text), run.stdout.index("# system"))


if __name__ == "__main__":
    unittest.main()
