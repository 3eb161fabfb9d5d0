"""What each block device is in the terms of a text: a kind, and the parts that it stands on; or why a text cannot tell it."""

MD_RESERVE, DM_RESERVE, MD_RECORDS = 2, 16, 256
MOST_MEMBERS = 8
PAGE = 8  # sectors

RAID1D = "raid1d submits the copies of an array with a bitmap"
KMIRRORD = "kmirrord submits its copies"
WHY_NOT = {
    "crypt": "dm-crypt encrypts into bios and pages of its own",
    "thin": "thin volumes find their places as they are written",
    "thin-pool": "thin volumes find their places as they are written",
    "raid4": "parity is written, of which a text has nothing",
    "raid5": "parity is written, of which a text has nothing",
    "raid6": "parity is written, of which a text has nothing",
}


class Untold(Exception):
    """A device that a text cannot tell. Its text says why."""


class Part:
    """A run of a block device that something stands on: all of it where there is no length."""

    def __init__(self, key, length=None):
        self.key, self.length = key, length


class Shape:
    """A device of a text: its kind, parts (`Part` or `Shape`) and options, and what a comment says of it."""

    def __init__(self, kind, parts, **options):
        self.kind, self.parts, self.options, self.notes = kind, parts, options, []
        if len(parts) > MOST_MEMBERS:
            raise Untold(f"it has {len(parts)} members, and a device of a text at most {MOST_MEMBERS}")
        if not parts:
            raise Untold("it has no member that works")

    def leaves(self):
        """Returns all parts of block devices, in order."""
        return [leaf for part in self.parts for leaf in ([part] if isinstance(part, Part) else part.leaves())]


class Shapes:
    """The shapes of a machine's block devices."""

    def __init__(self, blocks, arrays, tables, with_rescuers):
        self.blocks, self.arrays, self.tables = blocks, arrays, tables
        self.with_rescuers = with_rescuers
        self.keys = {block.kernel_name: key for key, block in blocks.items()}

    def shape(self, block):
        """Returns the shape of a block device, or None where it is a disk."""
        if block.type == "rom" or block.is_read_only:
            raise Untold("nothing is written to it")
        if block.name.startswith(("zram", "ram")):
            raise Untold("it lies in memory")
        if block.size < PAGE:
            raise Untold("it is smaller than a page")
        if block.is_whole:
            return None
        if block.name in self.arrays:
            return self.array(self.arrays[block.name])
        if block.name in self.tables:
            return self.mapped(self.tables[block.name])
        if block.type == "part" and len(block.below) == 1:
            return Shape("linear", [Part(block.below[0], block.size)])
        raise Untold(f"neither /proc/mdstat nor a table of dmsetup tells what a device of type {block.type} is")

    def members(self, array):
        found = []
        for _, name in sorted(array.slots.items()):
            if name not in self.keys:
                raise Untold(f"lsblk does not list its member {name}")
            found.append(Part(self.keys[name]))
        return found

    def mirror(self, parts, reserve, records, helper):
        """Returns a mirror. `helper` says which task of the kernel submits its copies in place of the writer, if there is one."""
        has_rescuer = helper or self.with_rescuers
        shape = Shape("mirror", parts, reserve=reserve, records=records, rescuer="yes" if has_rescuer else "no")
        if helper:
            shape.notes.append(f"{helper}, as a rescuer does")
        elif self.with_rescuers:
            shape.notes.append("the kernel has no rescuer here")
        elif len(parts) > 1:
            shape.notes.append("its set has no rescuer, so a copy may be waited for that only the waiting task could submit: `check` refuses it")
        return shape

    def array(self, array):
        """Returns the shape of an array of md."""
        if not array.is_active:
            raise Untold("the array is not active")
        parts, level = self.members(array), array.level
        helper = RAID1D if array.has_bitmap else None
        if level == "raid1":
            shape = self.mirror(parts, MD_RESERVE, MD_RECORDS, helper)
        elif level == "raid10":
            shape = self.raid10(array, helper)
        elif level in ("raid0", "linear"):
            if len(parts) < array.count:
                raise Untold("a member is missing")
            shape = Shape("linear", parts, reserve=MD_RESERVE) if level == "linear" else self.raid0(array, parts)
        else:
            raise Untold(WHY_NOT.get(level, f"md's level {level} is no kind of a text"))
        if array.left_out:
            shape.notes.append(f"without {', '.join(array.left_out)}")
        return shape

    def raid0(self, array, parts):
        if not array.chunk:
            raise Untold("nothing tells its chunk")
        chunks = {self.blocks[part.key].size // array.chunk for part in parts}
        shape = Shape("zoned" if len(chunks) > 1 else "stripe", parts, chunk=array.chunk, reserve=MD_RESERVE)
        if len(chunks) > 1:
            shape.notes.append("its members differ in size, so it has zones")
        return shape

    def raid10(self, array, helper):
        """Returns a stripe of mirrors. The array has one pool of records and one of bios for all of them."""
        if array.layout not in ("near=2", "") or array.count % 2 or not array.chunk:
            has = f"{array.count} members, {array.layout or 'no layout'} and chunks of {array.chunk}"
            raise Untold(f"of raid10 a text tells two near copies over an even number of members, and this array has {has}")
        found = []
        for slot in range(0, array.count, 2):
            names = [array.slots[it] for it in (slot, slot + 1) if it in array.slots]
            if any(name not in self.keys for name in names):
                raise Untold("lsblk does not list all of its members")
            found.append(self.mirror([Part(self.keys[name]) for name in names], MD_RESERVE, MD_RECORDS, helper))
        shape = Shape("stripe", found, chunk=array.chunk, reserve=MD_RESERVE)
        shape.notes.append(f"raid10 of md: its {len(found)} mirrors share one pool of records and one of bios in the kernel")
        return shape

    def mapped(self, segments):
        """Returns the shape of a mapped device: of its one target, or its targets one behind the other."""
        told = [self.segment(it) for it in segments]
        if len(told) == 1 and isinstance(told[0], Shape):
            return told[0]
        return Shape("linear", told, reserve=DM_RESERVE)

    def segment(self, segment):
        """Returns the shape of a line of a table, or the part that it maps as it is."""
        if not segment.is_told:
            raise Untold(WHY_NOT.get(segment.target, f"the target {segment.target} is no kind of a text"))
        count = len(segment.parts)
        length = segment.length // count if segment.target == "striped" and count else segment.length
        for key, _ in segment.parts:
            if key not in self.blocks:
                raise Untold(f"lsblk lists no device {key}")
        parts = [Part(key, length) for key, _ in segment.parts]
        if segment.target == "linear":
            return parts[0]
        if segment.target == "striped":
            return Shape("stripe", parts, chunk=segment.chunk, reserve=DM_RESERVE)
        if segment.target == "mirror":
            return self.mirror(parts, DM_RESERVE, DM_RESERVE, KMIRRORD)
        helper = RAID1D if segment.has_log else None
        return self.mirror(parts, MD_RESERVE, MD_RECORDS, helper)
