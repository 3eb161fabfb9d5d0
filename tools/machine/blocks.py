"""The block devices of a machine, as lsblk lists them, and the limits of their queues."""
import json
import re

from fault import Fault

SECTOR = 512


class Block:
    """A block device. `key` is its major and minor number, `below` are the keys of what it stands on, and `size` is in sectors."""

    def __init__(self, key, name, type_, size):
        self.key, self.name, self.type, self.size = key, name, type_, size
        self.below, self.mounts = [], []
        self.is_read_only = False
        # of its queue, in sectors: 0 where it has none
        self.max = self.chunk = 0
        is_mapped = type_ not in ("disk", "part", "loop", "rom", "md") and not re.match("raid|linear", type_)
        self.kernel_name = f"dm-{key.partition(':')[2]}" if is_mapped else name

    @property
    def is_whole(self):
        """Says whether it is a disk as the text has one: it stands on nothing."""
        return self.type in ("disk", "loop") and not self.below


def is_true(value):
    # older versions write "1" for true
    return value in (True, 1, "1")


def read_block(entry, found, below):
    try:
        key, name, type_ = entry["maj:min"].strip(), entry["name"], entry["type"]
        size = int(entry["size"]) // SECTOR
    except (KeyError, TypeError, ValueError, AttributeError):
        raise Fault(f"lsblk: a device without name, maj:min, type and size in bytes: {str(entry)[:60]}") from None
    block = found.setdefault(key, Block(key, name, type_, size))
    block.is_read_only = is_true(entry.get("ro"))
    mounts = entry.get("mountpoints", [entry.get("mountpoint")])
    block.mounts = [it for it in mounts if it]
    if below and below not in block.below:
        block.below.append(below)
    for child in entry.get("children") or []:
        read_block(child, found, key)


def read_blocks(text):
    """Returns the devices of lsblk's JSON by key, in its order."""
    try:
        entries = json.loads(text)["blockdevices"]
    except (ValueError, KeyError, TypeError):
        raise Fault("lsblk: this is not what `lsblk --json --bytes` writes") from None
    if not isinstance(entries, list):
        raise Fault("lsblk: its blockdevices are no list")
    found = {}
    for entry in entries:
        read_block(entry, found, None)
    return found


def read_limits(text, blocks):
    """Sets the limits of queues: lines such as `/sys/block/sda/queue/max_sectors_kb:1280`."""
    named = {block.kernel_name: block for block in blocks.values()}
    for number, line in enumerate(text.splitlines(), 1):
        match = re.match(r"/sys/block/([^/]+)/queue/(max_sectors_kb|chunk_sectors):(\d+)$", line)
        if not match:
            raise Fault(f"queue: line {number}: no limit of a queue: {line[:60]!r}")
        block = named.get(match[1].replace("!", "/"))
        if block and match[2] == "max_sectors_kb":
            block.max = 2 * int(match[3])
        elif block:
            block.chunk = int(match[3])
