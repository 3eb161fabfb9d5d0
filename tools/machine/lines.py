"""The lines of the text: one for each device, behind those of its members, with sizes as the machine has them."""
import re

from machine.shapes import MD_RESERVE, Part

LONGEST_NAME, LONGEST_WRITE = 16, 2048
MOST_DISKS, MOST_DEVICES = 16, 32


class Line:
    """A device of the text. `size` is that of a disk; `notes` stand in comments before it, and what is left out above it behind it."""

    def __init__(self, kind, name, members, options, notes=(), size=0):
        self.kind, self.name, self.members, self.options = kind, name, members, options
        self.notes, self.behind, self.size = list(notes), [], size


class Names:
    """Names of a text for those of the machine: at most 16 letters, digits, _ and -, each once."""

    def __init__(self):
        self.taken = {"fs"}

    def name(self, wish, end=""):
        plain = re.sub(r"[^A-Za-z0-9_-]", "-", wish)
        if not re.match("[A-Za-z]", plain):
            plain = f"d{plain}"
        number, found = 1, plain[:LONGEST_NAME - len(end)] + end
        while found in self.taken:
            number += 1
            more = f"-{number}"
            found = plain[:LONGEST_NAME - len(end) - len(more)] + more + end
        self.taken.add(found)
        return found


class Builder:
    """Writes the lines of some tops. `names[key]` are those of each block device, one for each slice of it."""

    def __init__(self, plan):
        self.plan, self.blocks = plan, plan.blocks
        self.lines, self.taken, self.names, self.uses = [], Names(), {}, {}

    def build(self, tops):
        """Writes the lines of tops, and returns their names."""
        for key in tops:
            self.count(key)
        return [self.block(key, None) for key in tops]

    def has_room(self):
        return len(self.lines) <= MOST_DEVICES and sum(line.kind == "disk" for line in self.lines) <= MOST_DISKS

    def place(self, key):
        """Returns the name of the last line of what a device stands on, or None where that has no line."""
        for it in self.blocks[key].below:
            name = self.names[it][-1] if it in self.names else self.place(it) if it in self.plan.left_out else None
            if name:
                return name
        return None

    def add_left_out(self):
        """Names each device that is left out behind the lines of what it stands on, and returns what has no such place."""
        named, found = {line.name: line for line in self.lines}, []
        for key, why in self.plan.left_out.items():
            block = self.blocks[key]
            on = "".join(f" on {self.blocks[it].name}" for it in block.below[:1])
            words = f"left out: {block.name}, of type {block.type}{on}: {why}"
            place = self.place(key)
            if place:
                named[place].behind.append(words)
            else:
                found.append(words)
        return found

    def count(self, key):
        """Counts how often each device is used by what is told. One with pools of its own is told once."""
        self.uses[key] = self.uses.get(key, 0) + 1
        if self.uses[key] > 1 and not self.plan.is_plain(key):
            return
        shape = self.plan.shapes[key]
        for part in shape.leaves() if shape else []:
            self.count(part.key)

    def add(self, kind, wish, members, options, notes=(), size=0):
        name = self.taken.name(wish)
        line = Line(kind, name, members, options, notes, size)
        if name != wish:
            line.notes.insert(0, f"{name} is {wish}")
        self.lines.append(line)
        return name

    def slice(self, key):
        """Returns the name to wish for the next slice of a device, and what a comment says of it."""
        block = self.blocks[key]
        number = len(self.names.setdefault(key, [])) + 1
        if self.uses[key] == 1:
            return block.name, []
        return f"{block.name}-{number}", [f"slice {number} of {self.uses[key]} of {block.name}: a device of a text has one user"]

    def block(self, key, length):
        """Writes what tells a block device, or `length` sectors of it, and returns its name."""
        block, shape = self.blocks[key], self.plan.shapes[key]
        is_plain = self.plan.is_plain(key)
        if key in self.names and not is_plain:
            return self.names[key][0]
        size = length if length and is_plain else block.size
        if shape is None:
            wish, notes = self.slice(key)
            if block.type == "loop":
                notes.append("the file behind this loop device is left out")
            name = self.add("disk", wish, [], {}, notes, size)
        elif is_plain:
            below = self.block(shape.parts[0].key, size)
            wish, notes = self.slice(key)
            name = self.add("linear", wish, [below], {}, notes)
        else:
            name = self.shape(block.name, shape)
            if length and length < block.size:
                self.lines[-1].notes.append(f"what stands on it uses {length} of its {block.size} sectors")
        for mount in sorted(set(block.mounts)):
            what = "swap" if mount == "[SWAP]" else f"the file system at {mount}"
            self.lines[-1].notes.append(f"{what} on {name} is left out")
        name = self.limit(block, name)
        self.names.setdefault(key, []).append(name)
        return name

    def limit(self, block, name):
        """Writes the limits of a queue, where it may cut a write. The queue of a mapped device cuts no write."""
        is_limited = block.chunk or 0 < block.max < LONGEST_WRITE
        if not is_limited or block.kernel_name.startswith("dm-"):
            return name
        options = {"max": min(block.max or LONGEST_WRITE, LONGEST_WRITE)}
        if block.chunk:
            options["chunk"] = block.chunk
        options["reserve"] = MD_RESERVE
        notes = [f"the limits of the queue of {block.name}" + (", which has one pool for all slices" if self.uses[block.key] > 1 else "")]
        return self.add("limit", f"{name[:LONGEST_NAME - 2]}-q", [name], options, notes)

    def shape(self, wish, shape):
        members = []
        for part in shape.parts:
            if isinstance(part, Part):
                # several parts of a device with pools of its own are told as one
                lengths = [it.length for it in shape.parts if isinstance(it, Part) and it.key == part.key]
                is_one = self.plan.is_plain(part.key) or None in lengths
                name = self.block(part.key, part.length if is_one else sum(lengths))
            else:
                name = self.shape(f"{wish}-{len(members) + 1}", part)
            if name not in members:
                members.append(name)
        return self.add(shape.kind, wish, members, shape.options, shape.notes)


def build(plan, tops):
    """Returns the lines that tell the tops, their names, and comments on what is left out. The smallest tops go first where there is no room."""
    tops = list(tops)
    while True:
        builder = Builder(plan)
        names = builder.build(tops)
        if builder.has_room():
            return builder.lines, names, builder.add_left_out()
        least = min(tops, key=lambda it: plan.blocks[it].size)
        tops.remove(least)
        plan.left_out[least] = f"a text has room for {MOST_DISKS} disks and {MOST_DEVICES} devices"
