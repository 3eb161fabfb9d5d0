"""Saved outputs of machines, and the text that must come of each."""
import io
import os
import tempfile
import unittest

from fault import Fault
from machine.main import main
from tests import TOOLS, needs_program, program, tool

FOLDER = os.path.join(TOOLS, "tests", "machines")
ACCEPTED = ""
# a folder and words; the lines of the text without its comments; what comments must say; the line that the program refuses with 10
CASES = [
    ("raid1", [], """memory none
disk sda 129024
linear sda1 sda
disk sdb 129024
linear sdb1 sdb
mirror md0 sda1 sdb1 reserve=2 records=256 rescuer=no
write 0 md0 0 2048 0""", ["the file system at /srv on md0 is left out"], "mirror md0"),
    ("raid1", ["--with-rescuers"], """memory none
disk sda 129024
linear sda1 sda
disk sdb 129024
linear sdb1 sdb
mirror md0 sda1 sdb1 reserve=2 records=256 rescuer=yes
write 0 md0 0 2048 0""", ["the kernel has no rescuer here"], ACCEPTED),
    # 7,814,037,168 sectors by 65,536 are 119,232 in whole pages; raid1d submits the copies of an array with a bitmap
    ("raid1-bitmap", [], """memory none
disk sda 119232
disk sdb 119232
limit sdb-q sdb max=1024 reserve=2
mirror md0 sda sdb-q reserve=2 records=256 rescuer=yes
write 0 md0 0 2048 0""", ["divided by 65536", "max 1024 stays", "raid1d"], ACCEPTED),
    # 4 disks of 2,097,152 sectors by 32 are just what a text has, and the chunk of 1,024 by 32 is 32
    ("raid10", [], """memory none
disk sda 65536
disk sdb 65536
mirror md0-1 sda sdb reserve=2 records=256 rescuer=no
disk sdc 65536
disk sdd 65536
mirror md0-2 sdc sdd reserve=2 records=256 rescuer=no
stripe md0 md0-1 md0-2 chunk=32 reserve=2
write 0 md0 0 2048 0""", ["chunk 1024 is divided by 32 too", "share one pool"], "mirror md0-1"),
    ("raid0-and-linear", [], """memory none
disk sda 81920
disk sdb 81920
stripe md0 sda sdb chunk=1024 reserve=2
limit md0-q md0 max=1024 reserve=2
disk sdc 32768
disk sdd 49152
linear md1 sdc sdd reserve=2
write 0 md0-q 0 2048 0
write 1 md1 0 2048 0""", ["the limits of the queue of md0"], ACCEPTED),
    ("lvm", [], """memory none
disk vda-1 32768
linear vda1 vda-1
disk vda-2 65536
linear vda2-1 vda-2
linear vg-root vda2-1 reserve=16
disk vda-3 32768
linear vda2-2 vda-3
disk vda-4 16384
linear vda2-3 vda-4
linear vg-home vda2-2 vda2-3 reserve=16
write 0 vda1 0 2048 0
write 1 vg-root 0 2048 0
write 2 vg-home 0 2048 0""", ["left out: luks-data, of type crypt on vda3: dm-crypt", "slice 3 of 4 of vda", "left out: sr0"], ACCEPTED),
    ("lvm-on-raid1", [], """memory none
disk sda 126976
disk sdb 126976
mirror md0 sda sdb reserve=2 records=256 rescuer=yes
linear vg-root md0 reserve=16
write 0 vg-root 0 2048 0""", ["left out: vg-swap, of type lvm on md0", "uses 65536 of its 122880 sectors"], ACCEPTED),
    ("mapped-mirrors", [], """memory none
disk sda-1 32768
disk sdb-1 32768
stripe vg-fast sda-1 sdb-1 chunk=128 reserve=16
disk sda-2 16384
linear vg-old_mimage_0 sda-2 reserve=16
disk sdb-2 16384
linear vg-old_mimage_1 sdb-2 reserve=16
mirror vg-old vg-old_mimage_0 vg-old_mimage_1 reserve=16 records=16 rescuer=yes
disk sda-3 32768
linear vg-safe_rimage_0 sda-3 reserve=16
disk sdb-3 32768
linear vg-safe_rimage_1 sdb-3 reserve=16
mirror vg-safe vg-safe_rimage_0 vg-safe_rimage_1 reserve=2 records=256 rescuer=yes
write 0 vg-fast 0 2048 0
write 1 vg-old 0 2048 0
write 2 vg-safe 0 2048 0""", ["kmirrord", "raid1d"], ACCEPTED),
    ("degraded", [], """memory none
disk sda 16384
disk sdb 32768
zoned md0 sda sdb chunk=128 reserve=2
disk sdd 32768
mirror md1 sdd reserve=2 records=256 rescuer=no
write 0 md0 0 2048 0
write 1 md1 0 2048 0""", ["without sdc, which has failed", "it has zones"], ACCEPTED),
]
DISK = '{"blockdevices": [{"name": "sda", "maj:min": "8:0", "size": 1048576, "ro": false, "type": "disk"}]}'
# a saved file, what is in it, and what is said of it
FAULTS = [
    ("lsblk.json", "NAME SIZE\n", "lsblk: this is not what `lsblk --json --bytes` writes"),
    ("lsblk.json", '{"blockdevices": [{"name": "sda"}]}', "lsblk: a device without name, maj:min, type and size in bytes"),
    ("lsblk.json", DISK.replace("1048576", '"1M"'), "lsblk: a device without name, maj:min, type and size in bytes"),
    ("mdstat", "Personalities : [raid1]\nmd0 : active raid1 sda[x]\n", "mdstat: line 2: no member of an array"),
    ("mdstat", "md0\n", "mdstat: line 1: no line of /proc/mdstat"),
    ("dmsetup.txt", "a: 0 8 linear 8:0 0\nb 0 8\n", "dmsetup: line 2: no line of a table"),
    ("dmsetup.txt", "a: 0 8 striped 2 16 8:0 0\n", "dmsetup: line 1: a table of target striped that says no such thing"),
    ("queue.txt", "/sys/block/sda/queue/max_sectors_kb 1280\n", "queue: line 1: no limit of a queue"),
    ("mdadm-md7.txt", "Raid Level : raid1\n", "mdadm-md7: /proc/mdstat has no array md7"),
]


def text_of(folder, words=()):
    into = io.StringIO()
    status = main(["--from", os.path.join(FOLDER, folder), *words], into)
    return status, into.getvalue()


class Machines(unittest.TestCase):
    def test_texts(self):
        for folder, words, due, comments, _ in CASES:
            status, text = text_of(folder, words)
            found = [line for line in text.splitlines() if not line.startswith("#")]
            self.assertEqual((status, found), (0, due.split("\n")), folder)
            for words in comments:
                self.assertTrue(any(words in line for line in text.splitlines() if line.startswith("#")), f"{folder}: {words}\n{text}")

    @needs_program
    def test_program_takes_them(self):
        for folder, words, _, _, refused in CASES:
            text = text_of(folder, words)[1]
            lines = text.splitlines()
            due = ""
            if refused:
                number = next(k for k, line in enumerate(lines, 1) if line.startswith(refused))
                due = f"biostack: line {number}: 10 NeedsRescuer\n"
            status, _, errors = program("check", data=text.encode())
            self.assertEqual((status, errors), (3 if due else 0, due), folder)

    def test_nothing_sensible(self):
        status, out, errors = tool("from-machine", "--from", os.path.join(FOLDER, "raid5"))
        self.assertEqual((status, out), (3, ""))
        self.assertEqual(errors, "from-machine: nothing of this machine can be told in a text. "
                                 "md0, of type raid5: parity is written, of which a text has nothing\n")


class Inputs(unittest.TestCase):
    def test_files(self):
        for file, data, why in FAULTS:
            with tempfile.TemporaryDirectory() as folder:
                for name, words in (("lsblk.json", DISK), (file, data)):
                    with open(os.path.join(folder, name), "w", encoding="ascii") as into:
                        into.write(words)
                status, out, errors = tool("from-machine", "--from", folder)
            self.assertEqual((status, out, errors.count("\n")), (3, "", 1), errors)
            self.assertIn(why, errors)

    def test_no_folder(self):
        self.assertEqual(tool("from-machine", "--from", "/no/such/folder"),
                         (3, "", "from-machine: /no/such/folder/lsblk.json: No such file or directory\n"))

    def test_words(self):
        for words in (["--from"], ["now"], ["--from", "a", "--from", "b"]):
            with self.assertRaises(Fault) as caught:
                main(words, io.StringIO())
            self.assertEqual(caught.exception.status, 2, words)
