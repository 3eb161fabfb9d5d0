"""The tables of the device mapper, as `dmsetup table` writes them."""
import re

from fault import Fault

NO_COPY = "-"


class Segment:
    """A line of a table: its target and, where it is one that a text can tell, the parts that it stands on."""

    def __init__(self, target, length):
        self.target, self.length = target, length
        self.parts, self.chunk, self.has_log = [], 0, False
        self.is_told = target in READERS


def pairs(words, count):
    """Returns devices and offsets from words such as `8:1 384 8:17 384`."""
    if len(words) < 2 * count:
        raise ValueError
    return [(words[2 * k], int(words[2 * k + 1])) for k in range(count)]


def read_linear(segment, words):
    segment.parts = pairs(words, 1)


def read_striped(segment, words):
    segment.chunk = int(words[1])
    segment.parts = pairs(words[2:], int(words[0]))


def read_mirror(segment, words):
    behind_log = words[2 + int(words[1]):]
    segment.parts = pairs(behind_log[1:], int(behind_log[0]))


def read_raid(segment, words):
    """Reads `raid1 #params params.. #members (metadata data)..`."""
    segment.target = words[0]
    if words[0] != "raid1":
        segment.is_told = False
        return
    behind = words[2 + int(words[1]):]
    members = [behind[1 + 2 * k:3 + 2 * k] for k in range(int(behind[0]))]
    segment.parts = [(data, 0) for _, data in members if data != NO_COPY]
    segment.has_log = any(log != NO_COPY for log, _ in members)


READERS = {"linear": read_linear, "striped": read_striped, "mirror": read_mirror, "raid": read_raid}


def read_tables(text):
    """Returns the segments of each mapped device by its name, in order."""
    found = {}
    for number, line in enumerate(text.splitlines(), 1):
        if not line.strip() or line.startswith("No devices found"):
            continue
        match = re.match(r"(.+): (\d+) (\d+) (\S+) ?(.*)$", line)
        if not match:
            raise Fault(f"dmsetup: line {number}: no line of a table: {line[:60]!r}")
        segment = Segment(match[4], int(match[3]))
        try:
            if segment.is_told:
                READERS[match[4]](segment, match[5].split())
        except (ValueError, IndexError):
            raise Fault(f"dmsetup: line {number}: a table of target {match[4]} that says no such thing: {line[:60]!r}") from None
        found.setdefault(match[1], []).append(segment)
    return found
