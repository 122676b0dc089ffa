"""The packets in a pcap or pcapng file: a time in ns, the link type, and the bytes that were kept."""
import struct


class Wrong(Exception):
    """What is wrong with a file or with the words."""


# The first four bytes of a pcap file: the order of its bytes, and how many ns its unit of a fraction has.
ORDERS = {
    b"\xd4\xc3\xb2\xa1": ("<", 1000),
    b"\xa1\xb2\xc3\xd4": (">", 1000),
    b"\x4d\x3c\xb2\xa1": ("<", 1),
    b"\xa1\xb2\x3c\x4d": (">", 1),
}
SECTION = b"\x0a\x0d\x0d\x0a"
NANOS = 10**9


def packets_of(data):
    """Yields each whole packet of a file. `Wrong` at the end where the file ends inside one."""
    if data[:4] == SECTION:
        return packets_of_pcapng(data)
    if data[:4] in ORDERS:
        return packets_of_pcap(data)
    raise Wrong("neither a pcap nor a pcapng file")


def packets_of_pcap(data):
    order, unit = ORDERS[data[:4]]
    if len(data) < 24:
        raise Wrong("the file ends inside its head")
    # The upper bits tell of a checksum behind each frame, which no packet of UDP reaches.
    link = struct.unpack(order + "I", data[20:24])[0] & 0xFFFF
    at = 24
    while at < len(data):
        if at + 16 > len(data):
            raise Wrong("the file ends inside a packet")
        sec, fraction, kept, _ = struct.unpack(order + "IIII", data[at : at + 16])
        if at + 16 + kept > len(data):
            raise Wrong("the file ends inside a packet")
        yield sec * NANOS + fraction * unit, link, data[at + 16 : at + 16 + kept]
        at += 16 + kept


def options_of(order, data):
    """The options of a block, by their code."""
    options = {}
    while len(data) >= 4:
        code, size = struct.unpack(order + "HH", data[:4])
        if code == 0:
            break
        options[code] = data[4 : 4 + size]
        data = data[4 + (size + 3 & ~3) :]
    return options


def interface_of(order, body):
    """The link type of an interface, how many units of time it has to a second, and what is added in seconds."""
    options = options_of(order, body[8:])
    resolution = options.get(9, b"\x06")[0]
    units = 2 ** (resolution & 0x7F) if resolution & 0x80 else 10**resolution
    offset = struct.unpack(order + "q", options[14])[0] if 14 in options else 0
    return struct.unpack(order + "H", body[:2])[0], units, offset


def blocks_of(data):
    """Yields the order of the bytes, the kind and the body of each block of a pcapng file."""
    at, order = 0, "<"
    while at < len(data):
        if at + 12 > len(data):
            raise Wrong("the file ends inside a block")
        if data[at : at + 4] == SECTION:
            order = "<" if data[at + 8 : at + 12] == b"\x4d\x3c\x2b\x1a" else ">"
        kind, size = struct.unpack(order + "II", data[at : at + 8])
        if size < 12 or size % 4:
            raise Wrong(f"a block of {size} bytes")
        if at + size > len(data):
            raise Wrong("the file ends inside a block")
        yield order, kind, data[at + 8 : at + size - 4]
        at += size


def packets_of_pcapng(data):
    interfaces = []
    for order, kind, body in blocks_of(data):
        if kind == 0x0A0D0D0A:
            interfaces = []
        elif kind == 1:
            interfaces.append(interface_of(order, body))
        elif kind == 6:
            which, high, low, kept, _ = struct.unpack(order + "IIIII", body[:20])
            if which >= len(interfaces):
                raise Wrong(f"a packet of interface {which}, which the file does not tell of")
            link, units, offset = interfaces[which]
            yield (high << 32 | low) * NANOS // units + offset * NANOS, link, body[20 : 20 + kept]
