"""From a frame of a link to a datagram of UDP."""
import struct
from collections import namedtuple

# Who sent it, to whom (addresses as bytes), and what it carries, as far as it was kept.
Datagram = namedtuple("Datagram", "source source_port target target_port payload")

ETHERNET, LINUX_ANY, LINUX_ANY_2 = 1, 113, 276
LOOPBACKS = (0, 108)
RAW = (12, 14, 101, 228, 229)
LINKS = (ETHERNET, LINUX_ANY, LINUX_ANY_2, *LOOPBACKS, *RAW)

IPV4, IPV6 = b"\x08\x00", b"\x86\xdd"
TAGS = (b"\x81\x00", b"\x88\xa8", b"\x91\x00")
UDP = 17
# The heads of IPv6 that may stand before UDP's: options by the hop, routing, options of the target.
MORE_HEADS = (0, 43, 60)


def behind_tags(frame, kind_at, rest_at):
    """The IP packet of a frame that tells its kind at one place and goes on at another, behind tags of a VLAN."""
    kind, rest = frame[kind_at : kind_at + 2], frame[rest_at:]
    while kind in TAGS:
        kind, rest = rest[2:4], rest[4:]
    return rest if kind in (IPV4, IPV6) else b""


def packet_of(link, frame):
    """The IP packet of a frame; no bytes where it has none."""
    if link == ETHERNET:
        return behind_tags(frame, 12, 14)
    if link == LINUX_ANY:
        return behind_tags(frame, 14, 16)
    if link == LINUX_ANY_2:
        return behind_tags(frame, 0, 20)
    return frame[4:] if link in LOOPBACKS else frame


def inside_ipv4(packet):
    """The addresses and what is inside, where that is UDP and whole."""
    if len(packet) < 20 or packet[9] != UDP:
        return None
    if packet[6] & 0x3F or packet[7]:
        return None
    return packet[12:16], packet[16:20], packet[(packet[0] & 15) * 4 :]


def inside_ipv6(packet):
    """The same of version 6. A packet that was sent in parts has another head before UDP's."""
    if len(packet) < 40:
        return None
    kind, rest = packet[6], packet[40:]
    while kind in MORE_HEADS and len(rest) >= 8:
        kind, rest = rest[0], rest[8 + rest[1] * 8 :]
    return (packet[8:24], packet[24:40], rest) if kind == UDP else None


def datagram_of(link, frame):
    """The datagram of a frame; None where it has none, or only a part of one."""
    packet = packet_of(link, frame)
    version = packet[0] >> 4 if packet else 0
    found = inside_ipv4(packet) if version == 4 else inside_ipv6(packet) if version == 6 else None
    if found is None or len(found[2]) < 8:
        return None
    source, target, udp = found
    source_port, target_port, size, _ = struct.unpack(">HHHH", udp[:8])
    return Datagram(source, source_port, target, target_port, udp[8:size])
