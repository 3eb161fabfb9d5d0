"""What tasks share: pools, rescue lists, disks and the nodes of open bios, each with the moves that an event makes."""
from collections import deque

from viewer.scenario import FS


class Misfit(Exception):
    """An event that is no step from the state at hand. Its text says why."""


class Pool:
    """A pool of elements. Always `spares + out = reserve + live`, where `live` counts ordinary elements."""

    def __init__(self, plan):
        self.name, self.reserve = plan.name, plan.reserve
        self.entries, self.tail, self.position = plan.entries, plan.tail, 0
        self.out = self.live = self.ordinary = self.spare = 0
        # one for each spare: the step of the give that brought it, or None where it was there at first
        self.brought = [None] * plan.reserve

    @property
    def spares(self):
        return len(self.brought)

    def allows(self):
        return self.entries[self.position] if self.position < len(self.entries) else self.tail

    def can_serve(self):
        return bool(self.brought) or self.allows()

    def take(self, got, waits):
        """Makes an attempt, and returns the step of the give that brought the spare that was taken."""
        allowed, has_entry = self.allows(), self.position < len(self.entries)
        if got == "ordinary" and not allowed:
            raise Misfit(f"no attempt of {self.name} at ordinary memory succeeds here")
        if got == "spare" and not self.brought:
            raise Misfit(f"{self.name} has no spare")
        if got == "missed" and self.brought:
            raise Misfit(f"{self.name} has a spare")
        if got == "missed" and waits and not has_entry:
            raise Misfit(f"a take that waits at {self.name} and uses no entry of its script is no event")
        self.position += has_entry
        if got == "missed":
            return None
        self.out += 1
        if got == "ordinary":
            self.live += 1
            self.ordinary += 1
            return None
        self.spare += 1
        return self.brought.pop()

    def give(self, step):
        """Takes an element back, and says whether it is a spare now."""
        self.out -= 1
        if len(self.brought) < self.reserve:
            self.brought.append(step)
            return True
        self.live -= 1
        return False

    def resize(self, reserve):
        self.reserve = reserve
        self.brought = [None] * reserve

    def facts(self):
        return [self.reserve, self.spares, self.live, self.ordinary, self.spare]


class Bio:
    """A request to write `count` sectors of a device from `start` on. `set` is the device whose set it is of, or FS."""

    __slots__ = ("write", "node", "device", "start", "count", "set", "leg", "punted", "pushed")

    def __init__(self, write, node, place, set_, leg=0):
        self.write, self.node, self.set, self.leg = write, node, set_, leg
        self.device, self.start, self.count = place
        self.punted = self.pushed = None


class Node:
    """What the parts of a write count down on. `holds` are the pools of what goes home when it closes, in order."""

    __slots__ = ("how", "parent", "count", "status", "is_marked", "vector", "bio", "record", "write", "leg", "place")

    def __init__(self, how, parent, write, count=1):
        self.how, self.parent, self.write, self.count = how, parent, write, count
        self.status, self.is_marked = "ok", False
        self.bio, self.record, self.vector, self.leg = None, None, False, 0

    def drop(self, status):
        """Takes in the end of a part, and says whether the node has closed."""
        if self.how == "master":
            self.is_marked = self.is_marked or status == "ok"
        elif self.status == "ok":
            self.status = status
        self.count -= 1
        if self.count == 0 and self.how == "master":
            self.status = "ok" if self.is_marked else "io"
        return self.count == 0

    def homes(self, devices):
        """Returns the names of the pools that its elements go back to, in the order of the gives."""
        found = ["fs.vecs"] if self.vector else []
        if self.bio:
            found.append("fs.bios" if self.bio.set == FS else f"{devices[self.bio.set].name}.bios")
        if self.record is not None:
            found.append(f"{devices[self.record].name}.records")
        return found


class Disk:
    """A disk with the bios that wait in it, and the sectors that were written."""

    def __init__(self, device):
        self.device, self.pending = device, deque()
        self.written = bytearray(device.size)

    def fault(self, bio):
        """Returns the status of a bio: that of the bad range that starts first among those that it touches."""
        touched = [it for it in self.device.bad if it[0] < bio.start + bio.count and bio.start < it[0] + it[1]]
        return min(touched, key=lambda it: it[0])[2] if touched else "ok"

    def complete(self, index, status):
        if index >= len(self.pending):
            raise Misfit(f"{self.device.name} has {len(self.pending)} bios that wait, and none at index {index}")
        bio = self.pending[index]
        if status != self.fault(bio):
            raise Misfit(f"the bio ends with {self.fault(bio)}, and not with {status}")
        del self.pending[index]
        if status == "ok":
            self.written[bio.start:bio.start + bio.count] = b"\1" * bio.count
        return bio

    def runs(self):
        """Returns the runs of written sectors, as first sectors and lengths."""
        found, start = [], self.written.find(1)
        while start >= 0:
            end = self.written.find(0, start)
            end = len(self.written) if end < 0 else end
            found.append([start, end - start])
            start = self.written.find(1, end)
        return found
