"""What the machine says of its block devices: live, or from files that were saved.

A folder has `lsblk.json` (of `lsblk --json --bytes`), and may have `dmsetup.txt` (of `dmsetup table`), `mdstat` (of /proc/mdstat), `mdadm-NAME.txt`
(of `mdadm --detail /dev/NAME`) and `queue.txt` (of `grep . /sys/block/*/queue/{max_sectors_kb,chunk_sectors}`).
"""
import glob
import os
import shutil
import subprocess

from fault import Fault


class Sources:
    """The texts, each with its name for the lines that say what is wrong."""

    def __init__(self):
        self.lsblk = self.dmsetup = self.mdstat = self.queue = ""
        self.details = {}


def read_file(path):
    try:
        with open(path, encoding="utf-8", errors="replace") as file:
            return file.read()
    except OSError as error:
        raise Fault(f"{path}: {error.strerror}") from None


def saved(folder):
    """Returns what the files of a folder say."""
    found = Sources()
    found.lsblk = read_file(os.path.join(folder, "lsblk.json"))
    for name, file in (("dmsetup", "dmsetup.txt"), ("mdstat", "mdstat"), ("queue", "queue.txt")):
        path = os.path.join(folder, file)
        if os.path.exists(path):
            setattr(found, name, read_file(path))
    for path in sorted(glob.glob(os.path.join(folder, "mdadm-*.txt"))):
        found.details[os.path.basename(path)[len("mdadm-"):-len(".txt")]] = read_file(path)
    return found


def output(*words):
    """Returns what a command writes, or None where it is not there or fails."""
    path = shutil.which(words[0]) or shutil.which(words[0], path="/sbin:/usr/sbin")
    if not path:
        return None
    ran = subprocess.run([path, *words[1:]], stdout=subprocess.PIPE, stderr=subprocess.DEVNULL, stdin=subprocess.DEVNULL)
    return ran.stdout.decode("utf-8", "replace") if ran.returncode == 0 else None


def live():
    """Returns what this machine says. `dmsetup` and `mdadm` answer root alone."""
    found = Sources()
    found.lsblk = output("lsblk", "--json", "--bytes")
    if found.lsblk is None:
        raise Fault("there is no lsblk, or it failed")
    found.dmsetup = output("dmsetup", "table") or ""
    if os.path.exists("/proc/mdstat"):
        found.mdstat = read_file("/proc/mdstat")
    names = [line.split()[0] for line in found.mdstat.splitlines() if " : " in line and line.startswith("md")]
    for name in names:
        detail = output("mdadm", "--detail", f"/dev/{name}")
        if detail:
            found.details[name] = detail
    lines = []
    for path in sorted(glob.glob("/sys/block/*/queue/max_sectors_kb") + glob.glob("/sys/block/*/queue/chunk_sectors")):
        lines.append(f"{path}:{read_file(path)}")
    found.queue = "".join(lines)
    return found
