"""Pieces and sizes, worked out by hand."""
import unittest

from viewer.places import Places, size_of
from viewer.scenario import read_scenario

# the lines of a stack, its last device, a run on it, and the pieces: length, member, sector there
PIECES = [
    ("disk a 64\ndisk b 64\nstripe s chunk=8 a b\n", (5, 20), [(3, "a", 5), (8, "b", 0), (8, "a", 8), (1, "b", 8)]),
    ("disk a 64\nlimit l max=3 chunk=8 a\n", (6, 10), [(2, "a", 6), (3, "a", 8), (3, "a", 11), (2, "a", 14)]),
    ("disk a 64\nlimit l max=3 a\n", (6, 10), [(3, "a", 6), (3, "a", 9), (3, "a", 12), (1, "a", 15)]),
    ("disk a 8\ndisk b 8\nlinear n a b\n", (6, 4), [(2, "a", 6), (2, "b", 0)]),
    # three zones: chunks 0 to 2 on all members, 3 and 4 on the larger two, 5 on the largest
    ("disk a 8\ndisk b 16\ndisk c 24\nzoned z chunk=8 a b c\n", (0, 48),
     [(8, "a", 0), (8, "b", 0), (8, "c", 0), (8, "b", 8), (8, "c", 8), (8, "c", 16)]),
    ("disk a 8\ndisk b 16\ndisk c 24\nzoned z chunk=8 a b c\n", (30, 12), [(2, "b", 14), (8, "c", 8), (2, "c", 16)]),
]
SIZES = [
    ("linear n a b", 24), ("stripe s chunk=8 a b", 16), ("stripe s chunk=5 a b", 10), ("zoned z chunk=8 a b", 24),
    ("zoned z chunk=5 a b", 20), ("mirror m a b", 8), ("limit l max=3 a", 8),
]


class Pieces(unittest.TestCase):
    def test_pieces(self):
        for lines, (start, count), due in PIECES:
            devices = read_scenario(lines, "text").devices
            places, found = Places(devices), []
            while count:
                length, member, at = places.first_piece(devices[-1], start, count)
                found.append((length, devices[member].name, at))
                start, count = start + length, count - length
            self.assertEqual(found, due, lines)

    def test_sizes(self):
        for line, due in SIZES:
            devices = read_scenario(f"disk a 8\ndisk b 16\n{line}\n", "text").devices
            self.assertEqual(devices[-1].size, due, line)
            self.assertEqual(size_of(devices[-1], [devices[it].size for it in devices[-1].members]), due)
