"""The words of the command, and what is done for them."""
import argparse
import ipaddress
import sys

from convert import Capture
from files import Wrong, packets_of


def address(word):
    try:
        return ipaddress.ip_address(word).packed
    except ValueError:
        raise argparse.ArgumentTypeError(f"{word} is no address") from None


def port(word):
    if not word.isdecimal() or not 0 < int(word) < 65536:
        raise argparse.ArgumentTypeError(f"{word} is no port")
    return int(word)


def parser():
    words = argparse.ArgumentParser(prog="pcap", description="Turns captured NTP packets into a capture for radclock.")
    words.add_argument("file", metavar="FILE", help="a pcap or pcapng file")
    words.add_argument("-p", dest="port", type=port, default=123, metavar="PORT", help="the server's port (123)")
    words.add_argument("-s", dest="server", type=address, metavar="ADDRESS", help="the server (that of the first request)")
    words.add_argument("-c", dest="client", type=address, metavar="ADDRESS", help="the client (that of the first request)")
    return words


def convert(words, data, told):
    """The capture of a file, and whether nothing was wrong with it. Whole packets before a cut are taken."""
    capture = Capture(words.port, words.client, words.server)
    sound = True
    try:
        for time, link, frame in packets_of(data):
            capture.add(time, link, frame)
    except Wrong as wrong:
        print(f"pcap: {words.file}: {wrong}", file=told)
        sound = False
    for link in sorted(capture.unknown):
        print(f"pcap: {words.file}: link type {link} is not known: its packets are passed over", file=told)
    print("pcap: %(sent)d sent, %(received)d received, %(other)d other packets" % capture.counts, file=told)
    return capture, sound


def main(words, out=sys.stdout.buffer, told=sys.stderr):
    words = parser().parse_args(words)
    try:
        with open(words.file, "rb") as file:
            data = file.read()
    except OSError as error:
        print(f"pcap: {words.file}: {error.strerror}", file=told)
        return 1
    capture, sound = convert(words, data, told)
    if not capture.records:
        return 1
    out.write(capture.bytes())
    out.flush()
    return 0 if sound else 1
