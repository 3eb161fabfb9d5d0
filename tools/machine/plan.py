"""Chooses what of a machine the text tells: the tops, and who has each device where several stand on it."""
from machine.shapes import Untold


class Plan:
    """`shapes[key]` is the shape of each block device that is told (None of a disk), `left_out[key]` why another is not."""

    def __init__(self, blocks, shapes):
        self.blocks, self.shapes, self.left_out = blocks, {}, {}
        self.order = self.sorted_keys()
        for key in self.order:
            try:
                shape = shapes.shape(blocks[key])
                self.look_below(shape)
                self.shapes[key] = shape
            except Untold as why:
                self.left_out[key] = str(why)
        for key in self.order:
            self.choose_user(key)

    def sorted_keys(self):
        """Returns all keys, each behind what it stands on."""
        found = []

        def visit(key):
            if key not in found:
                for it in self.blocks[key].below:
                    visit(it)
                found.append(key)

        for key in self.blocks:
            visit(key)
        return found

    def look_below(self, shape):
        for part in shape.leaves() if shape else []:
            if part.key in self.left_out:
                raise Untold(f"it stands on {self.blocks[part.key].name}, which is left out")
            if part.key not in self.shapes:
                raise Untold("it stands on a device that is no part of it in lsblk")

    def is_plain(self, key):
        """Says whether it is a disk or a partition of one. It has no pool of its own, so it may be told in slices."""
        block, shape = self.blocks[key], self.shapes.get(key)
        return block.is_whole or block.type == "part" and bool(shape) and self.is_plain(block.below[0])

    def users(self, key):
        """Returns the devices that are told and stand on this one."""
        return [it for it, shape in self.shapes.items() if shape and any(part.key == key for part in shape.leaves())]

    def drop(self, key, why):
        """Leaves out a device and all that stands on it."""
        for user in self.users(key):
            self.drop(user, f"it stands on {self.blocks[key].name}, which is left out")
        if key in self.shapes:
            del self.shapes[key]
            self.left_out[key] = why

    def choose_user(self, key):
        """Keeps the largest of those that stand on a device with pools of its own, since a device of a text has one user."""
        users = self.users(key) if key in self.shapes else []
        if len(users) < 2 or self.is_plain(key):
            return
        kept = max(users, key=lambda it: self.blocks[it].size)
        name = self.blocks[key].name
        for user in users:
            if user != kept:
                self.drop(user, f"{self.blocks[kept].name} stands on {name} too and is larger, and a device of a text has one user")

    def above(self, key):
        """Returns what lsblk says stands on a device, told or not."""
        return [it for it in self.order if key in self.blocks[it].below]

    def tops(self):
        """Returns what is written to: what nothing stands on, and what is left of a stack whose upper part is left out.

        A bare disk or partition under something left out is none, and neither is the metadata of something told.
        """
        found = []
        for key in self.shapes:
            above = self.above(key)
            if not above or not self.is_plain(key) and not any(it in self.shapes for it in above):
                found.append(key)
        return found
