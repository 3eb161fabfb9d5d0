"""Sizes of devices, and where the first piece of a run goes. All numbers are sectors."""


def size_of(device, sizes):
    """Returns the size of a device over members of these sizes."""
    if device.kind == "linear":
        return sum(sizes)
    if device.kind == "stripe":
        return len(sizes) * (min(sizes) // device.chunk * device.chunk)
    if device.kind == "zoned":
        return sum(size // device.chunk * device.chunk for size in sizes)
    return min(sizes)


class Places:
    """The pieces of runs at the devices of a stack that cut: linear, stripe, zoned and limit."""

    def __init__(self, devices):
        self.devices = devices
        self.zones = {it.number: self.zones_of(it) for it in devices if it.kind == "zoned"}

    def zones_of(self, device):
        """Returns the zones: the first chunk in the device, the first chunk in the members, and the members."""
        chunks = {m: self.devices[m].size // device.chunk for m in device.members}
        found, first, below = [], 0, 0
        for level in sorted(set(chunks.values()) - {0}):
            members = [m for m in device.members if chunks[m] >= level]
            found.append((first, below, members))
            first += len(members) * (level - below)
            below = level
        return found

    def first_piece(self, device, start, count):
        """Returns how long the first piece of a run is, and the member and the sector that it goes to."""
        if device.kind == "linear":
            for m in device.members:
                size = self.devices[m].size
                if start < size:
                    return min(count, size - start), m, start
                start -= size
        if device.kind == "limit":
            length = min(count, device.max)
            if device.chunk:
                length = min(length, device.chunk - start % device.chunk)
            return length, device.members[0], start
        number, offset = divmod(start, device.chunk)
        first, below, members = 0, 0, device.members
        if device.kind == "zoned":
            first, below, members = max(zone for zone in self.zones[device.number] if zone[0] <= number)
        row, place = divmod(number - first, len(members))
        return min(count, device.chunk - offset), members[place], (below + row) * device.chunk + offset
