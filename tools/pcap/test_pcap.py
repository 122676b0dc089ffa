"""Tests of pcap. Run them by `python3 -m unittest` in this folder. They make the bytes of their own files."""
import io
import ipaddress
import pathlib
import struct
import subprocess
import sys
import tempfile
import unittest

import cli
from convert import Capture
from files import NANOS, Wrong, packets_of
from frames import datagram_of

CLIENT, SERVER, OTHER = ("192.0.2.1", "192.0.2.2", "192.0.2.3")
CLIENT6, SERVER6 = ("2001:db8::1", "2001:db8::2")
MACS = bytes(12)


def ntp(mode, transmit=1, origin=0, size=48):
    return bytes([0x20 | mode, 1]) + bytes(22) + struct.pack(">QQQ", origin, 0, transmit) + bytes(size - 48)


def udp(source, target, payload):
    return struct.pack(">HHHH", source, target, 8 + len(payload), 0) + payload


def ipv4(source, target, inside, options=b"", parts=0, protocol=17):
    size = 20 + len(options)
    head = struct.pack(">BBHHHBBH", 0x40 | size // 4, 0, size + len(inside), 0, parts, 64, protocol, 0)
    return head + ipaddress.ip_address(source).packed + ipaddress.ip_address(target).packed + options + inside


def ipv6(source, target, inside, kind=17):
    head = struct.pack(">IHBB", 6 << 28, len(inside), kind, 64)
    return head + ipaddress.ip_address(source).packed + ipaddress.ip_address(target).packed + inside


def asks(transmit=1, port=40000, client=CLIENT, server=SERVER, size=48):
    return ipv4(client, server, udp(port, 123, ntp(3, transmit, size=size)))


def answers(origin=1, port=40000, client=CLIENT, server=SERVER):
    return ipv4(server, client, udp(123, port, ntp(4, 7, origin)))


def pcap(packets, order="<", magic=0xA1B2C3D4, unit=1000, link=101):
    """A pcap file of times in ns and frames."""
    file = struct.pack(order + "IHHiIII", magic, 2, 4, 0, 0, 65535, link)
    for time, frame in packets:
        file += struct.pack(order + "IIII", time // NANOS, time % NANOS // unit, len(frame), len(frame)) + frame
    return file


def block(order, kind, body):
    body += bytes(-len(body) % 4)
    size = struct.pack(order + "I", len(body) + 12)
    return struct.pack(order + "I", kind) + size + body + size


def section(order="<"):
    return block(order, 0x0A0D0D0A, struct.pack(order + "IHHq", 0x1A2B3C4D, 1, 0, -1))


def option(order, code, value):
    return struct.pack(order + "HH", code, len(value)) + value + bytes(-len(value) % 4)


def interface(order="<", link=101, options=b""):
    return block(order, 1, struct.pack(order + "HHI", link, 0, 65535) + options)


def enhanced(time, frame, order="<", which=0):
    return block(order, 6, struct.pack(order + "IIIII", which, time >> 32, time & 0xFFFFFFFF, len(frame), len(frame)) + frame)


def converted(data, *words):
    """What the command writes of a file, what it tells, and its status."""
    with tempfile.NamedTemporaryFile() as file:
        file.write(data)
        file.flush()
        out, told = io.BytesIO(), io.StringIO()
        status = cli.main([*words, file.name], out, told)
        return out.getvalue(), told.getvalue().replace(file.name, "FILE"), status


def records(capture):
    """The counts, ways and packets of a capture behind its head."""
    assert capture[:16] == b"RADCAP01" + struct.pack(">Q", NANOS), capture[:16]
    at, found = 16, []
    while at < len(capture):
        count, way, size = struct.unpack(">QBH", capture[at : at + 11])
        found.append((count, way, capture[at + 11 : at + 11 + size]))
        at += 11 + size
    return found


def ways(data, *words):
    return [(count, way) for count, way, _ in records(converted(data, *words)[0])]


T = 1700000000 * NANOS
TWO = [(T + 5000, asks()), (T + 69000, answers())]
FOUND = [(NANOS, 0), (NANOS + 64000, 1)]


class Files(unittest.TestCase):
    def test_a_request_and_its_reply(self):
        found, told, status = converted(pcap(TWO))
        self.assertEqual(records(found), [(NANOS, 0, ntp(3)), (NANOS + 64000, 1, ntp(4, 7, 1))])
        self.assertEqual((told, status), ("pcap: 1 sent, 1 received, 0 other packets\n", 0))

    def test_each_order_and_unit(self):
        for order in "<>":
            self.assertEqual(ways(pcap(TWO, order)), FOUND)
            self.assertEqual(ways(pcap([(T, asks()), (T + 3, answers())], order, 0xA1B23C4D, 1)), [(NANOS, 0), (NANOS + 3, 1)])

    def test_pcapng(self):
        for order in "<>":
            data = section(order) + interface(order) + b"".join(enhanced(t // 1000, f, order) for t, f in TWO)
            self.assertEqual(ways(data), FOUND)

    def test_times_of_pcapng(self):
        nanos = interface(options=option("<", 9, b"\x09") + option("<", 0, b""))
        self.assertEqual(ways(section() + nanos + b"".join(enhanced(t, f) for t, f in TWO)), FOUND)
        late = section() + nanos + enhanced((1 << 32) - 1, asks()) + enhanced((1 << 32) + 1, answers())
        self.assertEqual(ways(late), [(NANOS, 0), (NANOS + 2, 1)])
        halves = interface(options=option("<", 2, b"eth0") + option("<", 9, b"\x81"))
        data = section() + halves + enhanced(10, asks()) + enhanced(13, answers())
        self.assertEqual(ways(data), [(NANOS, 0), (NANOS * 5 // 2, 1)])

    def test_interfaces_of_pcapng(self):
        later = interface(options=option("<", 14, struct.pack("<q", 2)))
        data = section() + interface() + later + enhanced(0, asks()) + enhanced(5, answers(), which=1)
        self.assertEqual(ways(data), [(NANOS, 0), (NANOS * 3 + 5000, 1)])
        data = section() + interface() + block("<", 77, b"other") + section(">") + interface(">", 1)
        self.assertEqual(ways(data + enhanced(0, MACS + b"\x08\x00" + asks(), ">")), FOUND[:1])
        with self.assertRaises(Wrong):
            list(packets_of(section() + enhanced(0, asks())))

    def test_files_that_are_cut(self):
        whole = pcap(TWO)
        for cut in (whole[:-1], whole[: -len(answers()) - 1]):
            found, told, status = converted(cut)
            self.assertEqual(records(found), [(NANOS, 0, ntp(3))])
            self.assertEqual(told.splitlines()[0], "pcap: FILE: the file ends inside a packet")
            self.assertEqual(status, 1)
        data = section() + interface() + enhanced(0, asks())
        self.assertEqual(converted(data[:-1])[2], 1)
        self.assertEqual(converted(whole[:23])[0], b"")

    def test_other_files(self):
        for data in (b"", b"\x1f\x8b\x08\x00", b"RADCAP01"):
            self.assertEqual(converted(data)[0::2], (b"", 1))
        with self.assertRaises(Wrong):
            list(packets_of(section() + b"\x00" * 12))


class Frames(unittest.TestCase):
    def found(self, link, *heads):
        frames = [(T + 5000, heads[0] + asks()), (T + 69000, heads[-1] + answers())]
        self.assertEqual(ways(pcap(frames, link=link)), FOUND)

    def test_links(self):
        self.found(1, MACS + b"\x08\x00")
        self.found(1, MACS + b"\x81\x00\x00\x05\x08\x00")
        self.found(1, MACS + b"\x88\xa8\x00\x05\x81\x00\x00\x06\x08\x00")
        self.found(113, bytes(14) + b"\x08\x00")
        self.found(276, b"\x08\x00" + bytes(18))
        for link in (12, 14, 101, 228):
            self.found(link, b"")
        self.found(0, b"\x02\x00\x00\x00")
        self.found(108, b"\x00\x00\x00\x02")

    def test_frames_without_ip(self):
        for frame in (MACS + b"\x08\x06" + asks(), MACS, b""):
            self.assertIsNone(datagram_of(1, frame))
        self.assertIsNone(datagram_of(113, bytes(14) + b"\x00\x04" + asks()))

    def test_a_link_that_is_not_known(self):
        found, told, status = converted(pcap(TWO, link=127))
        self.assertEqual((found, status), (b"", 1))
        self.assertEqual(told.splitlines()[0], "pcap: FILE: link type 127 is not known: its packets are passed over")

    def test_ipv6(self):
        for kind, heads in ((17, b""), (0, b"\x11\x00" + bytes(6)), (60, b"\x2b\x01" + b"\x3b" * 14 + b"\x11\x00" + bytes(6))):
            sent = ipv6(CLIENT6, SERVER6, heads + udp(5, 123, ntp(3)), kind)
            came = ipv6(SERVER6, CLIENT6, heads + udp(123, 5, ntp(4)), kind)
            frames = [(T + 5000, MACS + b"\x86\xdd" + sent), (T + 69000, MACS + b"\x86\xdd" + came)]
            self.assertEqual(ways(pcap(frames, link=1), "-s", SERVER6), FOUND)
        self.assertIsNone(datagram_of(101, ipv6(CLIENT6, SERVER6, b"\x11\x00" + bytes(6) + udp(5, 123, ntp(3)), 44)))

    def test_options_of_ipv4(self):
        packet = ipv4(CLIENT, SERVER, udp(5, 123, ntp(3)), options=b"\x01\x01\x01\x00")
        self.assertEqual(datagram_of(101, packet).payload, ntp(3))

    def test_what_is_no_datagram(self):
        inside = udp(5, 123, ntp(3))
        for packet in (
            ipv4(CLIENT, SERVER, inside, protocol=6),
            ipv4(CLIENT, SERVER, inside, parts=0x2000),
            ipv4(CLIENT, SERVER, inside, parts=1),
            ipv4(CLIENT, SERVER, inside[:7]),
            ipv4(CLIENT, SERVER, b"")[:19],
            ipv6(CLIENT6, SERVER6, inside)[:39],
            b"\x55" + bytes(60),
        ):
            self.assertIsNone(datagram_of(101, packet))
        self.assertEqual(datagram_of(101, ipv4(CLIENT, SERVER, inside, parts=0x4000)).payload, ntp(3))

    def test_bytes_behind_the_datagram(self):
        self.assertEqual(datagram_of(101, asks() + b"padding").payload, ntp(3))


class Exchanges(unittest.TestCase):
    def test_others_are_passed_over(self):
        frames = [
            (T, answers()),
            (T + 1000, asks()),
            (T + 2000, asks(client=OTHER)),
            (T + 3000, asks(server=OTHER)),
            (T + 4000, answers(client=OTHER)),
            (T + 5000, answers(server=OTHER)),
            (T + 6000, ipv4(CLIENT, SERVER, udp(5, 123, ntp(4)))),
            (T + 7000, ipv4(SERVER, CLIENT, udp(123, 5, ntp(3)))),
            (T + 7500, ipv4(CLIENT, SERVER, udp(5, 123, ntp(1)))),
            (T + 8000, answers(port=5)),
        ]
        found, told, _ = converted(pcap(frames))
        self.assertEqual([(count, way) for count, way, _ in records(found)], [(NANOS, 0), (NANOS + 7000, 1)])
        self.assertEqual(told, "pcap: 1 sent, 1 received, 8 other packets\n")

    def test_who_is_asked_for(self):
        frames = [(T, asks(server=OTHER)), (T + 1000, asks()), (T + 2000, answers())]
        self.assertEqual(ways(pcap(frames)), [(NANOS, 0)])
        self.assertEqual(ways(pcap(frames), "-s", SERVER), [(NANOS, 0), (NANOS + 1000, 1)])
        self.assertEqual(converted(pcap(frames), "-c", OTHER)[0::2], (b"", 1))

    def test_other_ports(self):
        frames = [(T, ipv4(CLIENT, SERVER, udp(123, 11123, ntp(3)))), (T + 1000, ipv4(SERVER, CLIENT, udp(11123, 123, ntp(4))))]
        self.assertEqual(converted(pcap(frames))[0], b"")
        self.assertEqual(ways(pcap(frames), "-p", "11123"), [(NANOS, 0), (NANOS + 1000, 1)])

    def test_both_at_one_port(self):
        frames = [(T, ipv4(CLIENT, SERVER, udp(123, 123, ntp(3)))), (T + 1000, ipv4(SERVER, CLIENT, udp(123, 123, ntp(4))))]
        self.assertEqual(ways(pcap(frames)), [(NANOS, 0), (NANOS + 1000, 1)])

    def test_long_and_short_packets(self):
        found = records(converted(pcap([(T, asks(size=68)), (T + 1000, asks(2)[:-1])]))[0])
        self.assertEqual(found, [(NANOS, 0, ntp(3, size=68))])

    def test_a_clock_that_is_set_back(self):
        frames = [(T, asks()), (T - NANOS, answers()), (T - NANOS - 1000, asks(2))]
        found, told, status = converted(pcap(frames))
        self.assertEqual([(count, way) for count, way, _ in records(found)], [(NANOS, 0), (0, 1)])
        self.assertIn("set far back", told)
        self.assertEqual(status, 1)

    def test_counts_are_below_a_limit(self):
        capture = Capture(123)
        capture.add(0, 101, asks())
        capture.add((1 << 62) - 1 - NANOS, 101, asks())
        with self.assertRaises(Wrong):
            capture.add((1 << 62) - NANOS, 101, asks())


class Words(unittest.TestCase):
    def test_wrong_words(self):
        for words in (["-p", "0"], ["-p", "65536"], ["-p", "+1"], ["-s", "host"], ["-c", "1.2.3"], ["-x"]):
            result = subprocess.run([sys.executable, "pcap", *words, "FILE"], capture_output=True, cwd=pathlib.Path(__file__).parent)
            self.assertEqual((result.returncode, result.stdout), (2, b""))

    def test_the_command(self):
        with tempfile.NamedTemporaryFile() as file:
            file.write(pcap(TWO))
            file.flush()
            result = subprocess.run([sys.executable, "pcap", file.name], capture_output=True, cwd=pathlib.Path(__file__).parent)
            self.assertEqual((result.returncode, len(result.stdout)), (0, 16 + 2 * 59))
        result = subprocess.run([sys.executable, "pcap", file.name], capture_output=True, cwd=pathlib.Path(__file__).parent)
        self.assertEqual((result.returncode, result.stdout), (1, b""))


if __name__ == "__main__":
    unittest.main()
