"""What the machine is and does, and whether somebody steers its clock."""
import ctypes
import hashlib
import os
import platform
import subprocess
from datetime import datetime, timezone


class Timex(ctypes.Structure):
    _fields_ = [("modes", ctypes.c_uint), ("offset", ctypes.c_long), ("freq", ctypes.c_long), ("maxerror", ctypes.c_long),
                ("esterror", ctypes.c_long), ("status", ctypes.c_int), ("constant", ctypes.c_long), ("precision", ctypes.c_long),
                ("tolerance", ctypes.c_long), ("time", ctypes.c_long * 2), ("tick", ctypes.c_long), ("ppsfreq", ctypes.c_long),
                ("jitter", ctypes.c_long), ("shift", ctypes.c_int), ("stabil", ctypes.c_long), ("jitcnt", ctypes.c_long),
                ("calcnt", ctypes.c_long), ("errcnt", ctypes.c_long), ("stbcnt", ctypes.c_long), ("tai", ctypes.c_int),
                ("rest", ctypes.c_int * 11)]


def steering():
    """How the system clock is steered right now. With no modes it is only read."""
    told = Timex()
    if ctypes.CDLL(None, use_errno=True).adjtimex(ctypes.byref(told)) < 0:
        return None
    return {"frequency_ppm": told.freq / 65536, "offset": told.offset, "tick_us": told.tick, "status": told.status}


def is_free(before, after):
    """Whether nobody steered it in between, as far as the system tells."""
    return before is not None and before == after and before["offset"] == 0


def load():
    return round(os.getloadavg()[0], 2)


def processor():
    with open("/proc/cpuinfo") as told:
        names = [line.split(":", 1)[1].strip() for line in told if line.startswith("model name")]
    return names[0] if names else platform.machine()


def facts():
    return {"kernel": platform.release(), "cores": os.cpu_count(), "processor": processor()}


def date():
    return datetime.now(timezone.utc).strftime("%Y-%m-%d %H:%M:%S UTC")


def first_line(words):
    done = subprocess.run(words, capture_output=True, text=True)
    return (done.stdout or done.stderr).strip().split("\n")[0]


def checksum(path):
    """Which program it is."""
    with open(path, "rb") as file:
        return {"sha256": hashlib.sha256(file.read()).hexdigest()}
