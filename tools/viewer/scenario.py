"""Reads the text of a scenario that the program accepts: devices, pools with their scripts, and writes.

It is no check of the text, which the program makes. It stops at the first line that it cannot read, with the line's number.
"""
from fault import Fault
from viewer.places import size_of

FS = -1  # the writers' set, which stands above all devices
KINDS = ("io", "medium", "nospace")
OPTIONS = {
    "linear": ("reserve", "rescuer"),
    "stripe": ("chunk", "reserve", "rescuer"),
    "zoned": ("chunk", "reserve", "rescuer"),
    "limit": ("max", "chunk", "reserve", "rescuer"),
    "mirror": ("reserve", "records", "rescuer"),
}


class Device:
    """A device of the stack. Sizes, chunks and limits are in sectors; members are numbers of devices."""

    def __init__(self, number, name, kind):
        self.number, self.name, self.kind = number, name, kind
        self.members, self.size, self.bad = [], 0, []
        self.chunk = self.max = 0
        self.reserve = self.records = 2
        self.rescuer = kind == "mirror"


class PoolPlan:
    """How a pool is opened: its reserve, and which attempts at ordinary memory may succeed."""

    def __init__(self, name, reserve):
        self.name, self.reserve = name, reserve
        self.entries, self.tail = None, True


class Write:
    def __init__(self, number, round_, task, device, start, count):
        self.number, self.round, self.task = number, round_, task
        self.device, self.start, self.count = device, start, count


class Scenario:
    """What a text says. `resizes[r]` are the changes of reserves right before round r."""

    def __init__(self):
        self.devices, self.pools, self.writes = [], [], []
        self.resizes = [[]]

    @property
    def rounds(self):
        return len(self.resizes)

    def tops(self):
        members = {m for device in self.devices for m in device.members}
        return [device for device in self.devices if device.number not in members]


class Reader:
    """Reads a text line by line. `fail` says what is wrong with the line at hand."""

    def __init__(self, name):
        self.name, self.line = name, 0
        self.scenario, self.devices = Scenario(), {}
        self.fs = {"bios": 2, "vecs": 2}
        self.scripts, self.no_memory = {}, False
        # the round of the next write, and resizes behind sync lines that no write has followed yet
        self.round, self.changes = 0, [[]]

    def fail(self, what):
        raise Fault(f"{self.name}: line {self.line}: {what}")

    def number(self, word):
        # int would take signs, blanks and underscores too
        if not (word.isascii() and word.isdigit()) or len(word) > 20 or int(word) >= 1 << 64:
            self.fail(f"{word} is no number")
        return int(word)

    def device(self, name):
        if name not in self.devices:
            self.fail(f"there is no device {name}")
        return self.devices[name]

    def words(self, words, count):
        if len(words) != count:
            self.fail(f"a {words[0]} line has {count} words, and this one {len(words)}")
        return words[1:]

    def add(self, name, kind):
        if name in self.devices:
            self.fail(f"there is a device {name} already")
        device = Device(len(self.devices), name, kind)
        self.devices[name] = device
        self.scenario.devices.append(device)
        return device

    def read_disk(self, words):
        name, sectors = self.words(words, 3)
        self.add(name, "disk").size = self.number(sectors)

    def read_bad(self, words):
        disk, start, count, kind = self.words(words, 5)
        if kind not in KINDS:
            self.fail(f"{kind} is none of {', '.join(KINDS)}")
        self.device(disk).bad.append((self.number(start), self.number(count), kind))

    def read_stacked(self, words):
        if len(words) < 3:
            self.fail(f"a {words[0]} line needs a name and a member")
        device = self.add(words[1], words[0])
        for word in words[2:]:
            if "=" in word:
                self.read_option(device, *word.split("=", 1))
            else:
                device.members.append(self.device(word).number)
        if not device.members:
            self.fail(f"{device.name} has no member")
        if (device.kind in ("stripe", "zoned") and not device.chunk) or (device.kind == "limit" and not device.max):
            self.fail(f"{device.name} needs its {'max' if device.kind == 'limit' else 'chunk'}")
        device.size = size_of(device, [self.scenario.devices[m].size for m in device.members])

    def read_option(self, device, key, value):
        if key not in OPTIONS[device.kind]:
            self.fail(f"a {device.kind} has no {key}")
        if key == "rescuer":
            if value not in ("yes", "no"):
                self.fail("rescuer is yes or no")
            device.rescuer = value == "yes"
        else:
            setattr(device, key, self.number(value))

    def read_fs(self, words):
        for word in words[1:]:
            key, _, value = word.partition("=")
            if key not in self.fs:
                self.fail(f"fs has no {key}")
            self.fs[key] = self.number(value)

    def read_script(self, words):
        pool, pattern, tail = self.words(words, 4)
        if pattern != "." and set(pattern) - set("+-") or tail not in ("+", "-"):
            self.fail("a script has a pattern of + and -, or a dot, and a tail of + or -")
        self.scripts[pool] = ([] if pattern == "." else [c == "+" for c in pattern], tail == "+")

    def read_memory(self, words):
        if words != ["memory", "none"]:
            self.fail("memory is none")
        self.no_memory = True

    def read_write(self, words):
        task, name, start, count, tag = self.words(words, 6)
        device = self.device(name)
        numbers = [self.number(word) for word in (task, start, count, tag)]
        if not numbers[2] or numbers[1] + numbers[2] > device.size:
            self.fail(f"the write has no sector, or passes the end of {name}")
        writes = self.scenario.writes
        writes.append(Write(len(writes), self.round, numbers[0], device.number, numbers[1], numbers[2]))
        self.scenario.resizes = [list(changes) for changes in self.changes]

    def read_sync(self, words):
        self.words(words, 1)
        self.round += 1
        self.changes.append([])

    def read_resize(self, words):
        pool, reserve = self.words(words, 3)
        if not self.round:
            self.fail("a resize line stands behind a sync line")
        self.changes[-1].append((pool, self.number(reserve)))

    def read(self, text):
        kinds = {kind: self.read_stacked for kind in OPTIONS}
        for kind in ("disk", "bad", "fs", "script", "memory", "write", "sync", "resize"):
            kinds[kind] = getattr(self, f"read_{kind}")
        for self.line, line in enumerate(text.split("\n"), 1):
            words = line.split()
            if not words or words[0].startswith("#"):
                continue
            if words[0] not in kinds:
                self.fail(f"`{words[0]}` is no word that a line begins with")
            kinds[words[0]](words)
        self.open_pools()
        return self.scenario

    def open_pools(self):
        """Lists all pools, in the order of the report."""
        pools = [PoolPlan("fs.bios", self.fs["bios"]), PoolPlan("fs.vecs", self.fs["vecs"])]
        for device in self.scenario.devices:
            if device.kind == "mirror":
                pools.append(PoolPlan(f"{device.name}.records", device.records))
            if device.kind != "disk":
                pools.append(PoolPlan(f"{device.name}.bios", device.reserve))
        names = {pool.name for pool in pools}
        named = set(self.scripts) | {name for changes in self.changes for name, _ in changes}
        if named - names:
            raise Fault(f"{self.name}: there is no pool {min(named - names)}")
        for pool in pools:
            pool.entries, pool.tail = self.scripts.get(pool.name, ([], not self.no_memory))
        self.scenario.pools = pools


def read_scenario(text, name):
    """Returns the scenario of a text. `name` is the file's, for the line that says what is wrong."""
    return Reader(name).read(text)
