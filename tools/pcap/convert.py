"""From packets to a capture: the exchanges of one client with one server."""
import struct

from files import NANOS, Wrong
from frames import LINKS, datagram_of

HEAD = b"RADCAP01"
SENT, RECEIVED = 0, 1
CLIENT, SERVER = 3, 4
LEAST = 48
COUNTS = 1 << 62


class Capture:
    """A capture that is being made. Its counter has 1 GHz, and stands at 10^9 at the first packet."""

    def __init__(self, port, client=None, server=None):
        self.port, self.client, self.server = port, client, server
        self.start = None
        self.records = []
        self.unknown = set()
        self.counts = {"sent": 0, "received": 0, "other": 0}

    def way_of(self, link, frame):
        """Which way a packet of these two went, and what it carries; the first request tells who they are."""
        if link not in LINKS:
            self.unknown.add(link)
            return None, b""
        datagram = datagram_of(link, frame)
        if datagram is None or len(datagram.payload) < LEAST:
            return None, b""
        mode = datagram.payload[0] & 7
        if datagram.target_port == self.port and mode == CLIENT:
            asked = (datagram.source, datagram.target)
            if self.client in (None, asked[0]) and self.server in (None, asked[1]):
                self.client, self.server = asked
                return SENT, datagram.payload
        elif datagram.source_port == self.port and mode == SERVER:
            if (datagram.target, datagram.source) == (self.client, self.server):
                return RECEIVED, datagram.payload
        return None, b""

    def add(self, time, link, frame):
        way, payload = self.way_of(link, frame)
        if way is None:
            self.counts["other"] += 1
            return
        if self.start is None:
            self.start = time - NANOS
        count = time - self.start
        if not 0 <= count < COUNTS:
            raise Wrong("the clock was set far back, or forth by years, while the packets were captured")
        self.counts["received" if way else "sent"] += 1
        self.records.append(struct.pack(">QBH", count, way, len(payload)) + payload)

    def bytes(self):
        return HEAD + struct.pack(">Q", NANOS) + b"".join(self.records)
