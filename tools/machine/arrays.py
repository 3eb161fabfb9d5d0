"""The arrays of md, as /proc/mdstat and `mdadm --detail` tell of them."""
import re

from fault import Fault

FLAGS = {"F": "which has failed", "S": "a spare", "J": "a journal", "R": "a replacement"}
UNITS = {"k": 2, "m": 2048, "g": 2 << 20}


class Array:
    """An array: its level, its members by slot, its chunk in sectors, and whether raid1d has a bitmap to see to."""

    def __init__(self, name, level, is_active):
        self.name, self.level, self.is_active = name, level, is_active
        self.slots, self.left_out = {}, []
        self.count = self.chunk = 0
        self.layout, self.has_bitmap = "", False


def read_head(line):
    """Reads a line such as `md0 : active raid1 sdb1[1] sda1[0](F)`."""
    name, _, rest = line.partition(" : ")
    words = rest.split()
    is_active = words[:1] == ["active"]
    at = next((k for k, word in enumerate(words) if "[" in word), len(words))
    levels = [word for word in words[1:at] if not word.startswith("(")]
    array = Array(name.strip(), levels[0] if levels else "none", is_active)
    for word in words[at:]:
        match = re.match(r"(.+)\[(\d+)\]((?:\(\w\))*)$", word)
        if not match:
            return None
        why = [FLAGS[flag] for flag in re.findall(r"\((\w)\)", match[3]) if flag in FLAGS]
        if why:
            array.left_out.append(f"{match[1]}, {why[0]}")
        else:
            array.slots[int(match[2])] = match[1]
    array.count = len(array.slots)
    return array


def read_rest(line, array):
    """Reads what the lines behind the head say: chunk, layout, bitmap and how many members there should be."""
    chunk = re.search(r"(\d+)([kKmMgG]) chunks?", line)
    if line.strip().startswith("bitmap:"):
        array.has_bitmap = True
    elif chunk:
        array.chunk = int(chunk[1]) * UNITS[chunk[2].lower()]
    copies = re.findall(r"(\d+) (near|far|offset)-copies", line)
    if copies:
        array.layout = ", ".join(f"{kind}={count}" for count, kind in copies)
    count = re.search(r"\[(\d+)/(\d+)\]", line)
    if count:
        array.count = int(count[1])


def read_arrays(text):
    """Returns the arrays of /proc/mdstat by name."""
    found, array = {}, None
    for number, line in enumerate(text.splitlines(), 1):
        if re.match(r"md\S* : ", line):
            array = read_head(line)
            if array is None:
                raise Fault(f"mdstat: line {number}: no member of an array: {line[:60]!r}")
            found[array.name] = array
        elif line.startswith(" ") and array:
            read_rest(line, array)
        elif not line.strip() or re.match("Personalities|unused devices|read_ahead", line):
            array = None
        else:
            raise Fault(f"mdstat: line {number}: no line of /proc/mdstat: {line[:60]!r}")
    return found


def read_detail(text, array, named):
    """Takes in what `mdadm --detail` says of an array. `named` gives the kernel's name of a key."""
    if "Raid Level" not in text:
        raise Fault(f"mdadm-{array.name}: this is not what `mdadm --detail` writes")
    array.has_bitmap = array.has_bitmap or bool(re.search(r"(Intent Bitmap : (?!None)|Consistency Policy : bitmap)", text))
    count = re.search(r"Raid Devices : (\d+)", text)
    if count:
        array.count = int(count[1])
    slots = {}
    for major, minor, slot, state in re.findall(r"^\s*\d+\s+(\d+)\s+(\d+)\s+(\d+)\s+(.*)$", text, re.MULTILINE):
        name = named.get(f"{major}:{minor}")
        if name and "faulty" not in state and "spare" not in state:
            slots[int(slot)] = name
    if slots:
        array.slots = slots
