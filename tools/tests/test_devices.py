"""A machine with real devices: two loop devices and, where the kernel has md, a mirror of them. It runs only where it is asked for."""
import os
import shutil
import subprocess
import tempfile
import unittest

from tests import tool

ASKED = os.environ.get("REAL_DEVICES") == "1"
SIZE = 64 << 20


def call(*words):
    return subprocess.run(words, stdout=subprocess.PIPE, stderr=subprocess.PIPE, check=True).stdout.decode().strip()


@unittest.skipUnless(ASKED, "real devices are made only with REAL_DEVICES=1, as root")
@unittest.skipUnless(shutil.which("losetup") and shutil.which("lsblk"), "there is no losetup or lsblk")
class RealDevices(unittest.TestCase):
    def setUp(self):
        self.folder = tempfile.TemporaryDirectory()
        self.loops = []
        for number in range(2):
            path = os.path.join(self.folder.name, f"disk{number}")
            with open(path, "wb") as file:
                file.truncate(SIZE)
            self.loops.append(call("losetup", "--find", "--show", path))

    def tearDown(self):
        for loop in self.loops:
            call("losetup", "--detach", loop)
        self.folder.cleanup()

    def lines(self):
        status, text, errors = tool("from-machine")
        self.assertEqual((status, errors), (0, ""))
        return [line.split() for line in text.splitlines()]

    def test_loop_devices(self):
        lines = self.lines()
        for loop in self.loops:
            name = os.path.basename(loop)
            self.assertIn(["disk", name], [line[:2] for line in lines])
            self.assertEqual([line[3] for line in lines if line[0] == "write" and line[2] == name], ["0"])

    @unittest.skipUnless(shutil.which("mdadm") and os.path.exists("/proc/mdstat"), "there is no mdadm, or no md in the kernel")
    def test_mirror(self):
        path = "/dev/md/biostack-test"
        call("mdadm", "--create", path, "--run", "--level=1", "--raid-devices=2", "--bitmap=none", "--metadata=1.2", *self.loops)
        try:
            array = os.path.basename(os.path.realpath(path))
            names = [os.path.basename(loop) for loop in self.loops]
            self.assertIn(["mirror", array, *names, "reserve=2", "records=256", "rescuer=no"], self.lines())
        finally:
            call("mdadm", "--stop", path)
