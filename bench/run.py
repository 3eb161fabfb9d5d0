#!/usr/bin/env python3
"""Times the program's commands on stated inputs and prints a table. It is no test.

usage: bench/run.py [PROGRAM]      PROGRAM is crates/biostack/out/biostack if left out

The last column is how many times as long the input takes as one of half its writes: 2 is linear. The peak is told by GNU time, which is small itself; without it the column is empty.
"""
import os
import subprocess
import sys
import time

TOP = os.path.dirname(os.path.dirname(os.path.abspath(__file__)))
ROUNDS = 5
GNU_TIME = "/usr/bin/time"

MOST_BYTES = 4194304


def filled(text):
    """The text, and a comment up to the most bytes that a text may have."""
    return text + "#" * (MOST_BYTES - len(text) - 1) + "\n"


def writes(count):
    return "disk a 262144\n" + "".join(f"write {k % 8} a {k} 1 {64 * k}\n" for k in range(count))


def chain(count):
    """Writes to the top of a chain of 31 linear devices over a disk."""
    names = ["a"] + [f"n{k}" for k in range(31)]
    devices = "disk a 262144\n" + "".join(f"linear {above} {below}\n" for below, above in zip(names, names[1:]))
    return devices + "".join(f"write {k % 8} n30 {k} 1 0\n" for k in range(count))


def rounds():
    """1,024 rounds behind the first, each with a write of the same sectors and four changed reserves."""
    changes = "".join(f"resize {pool} {1 + k % 9}\n" for k, pool in enumerate(["fs.bios", "fs.vecs", "m.bios", "m.records"]))
    return "disk a 262144\nmirror m a\n" + f"sync\n{changes}write 0 m 0 2048 0\n" * 1024


def limited(memory, count):
    """Writes of 2,048 sectors to a disk under a limit of one sector: so many fragments each."""
    lines = f"disk a 262144\nlimit l max=1 a reserve=8\n{memory}"
    return lines + "".join(f"write 0 l {2048 * k} 2048 {131072 * k}\n" for k in range(count))


def mirrored(memory, count):
    """Writes of one sector to a mirror of two disks that keeps one bio."""
    return f"disk a 131072\ndisk b 131072\nmirror m a b reserve=1 records=1\n{memory}" + "".join(f"write {k % 8} m {k} 1 0\n" for k in range(count))


def whole(count=128):
    """Writes of 2,048 sectors one behind the other: 128 write each sector of the largest disk."""
    return "disk a 262144\n" + "".join(f"write {k % 8} a {2048 * k} 2048 {131072 * k}\n" for k in range(count))


def compared(bad=""):
    """A mirror of two disks, written whole, perhaps with a member that takes nothing."""
    return f"disk a 131072\ndisk b 131072\n{bad}mirror m a b\n" + "".join(f"write {k % 8} m {2048 * k} 2048 {131072 * k}\n" for k in range(64))


def two_writers(count=512):
    """Two writers on one stripe of two disks, in chunks of 8 sectors."""
    return "disk a 131072\ndisk b 131072\nstripe s chunk=8 a b\n" + "".join(f"write {k % 2} s {512 * k} 512 0\n" for k in range(count))


# name, words, text, and a text of half the writes where it may be twice as long
CASES = [
    ("smallest run", ["run"], "disk a 64\nwrite 0 a 0 1 0\n"),
    ("largest disk, 32 sectors at its end", ["run"], "disk a 262144\nwrite 0 a 262112 32 7\n"),
    ("largest disk, 2,048 sectors, no memory", ["run"], "disk a 262144\nmemory none\nwrite 0 a 260096 2048 0\n"),
    ("largest disk, all ranges bad behind it", ["run"], "disk a 262144\n" + "".join(f"bad a {k} 1 io\n" for k in range(1024)) + "write 0 a 4096 2048 0\n"),
    ("64 writes, 131,072 fragments", ["run"], limited("", 64), limited("", 32)),
    ("the same without ordinary memory", ["run"], limited("memory none\n", 64), limited("memory none\n", 32)),
    ("16,384 writes to a mirror, no memory", ["run"], mirrored("memory none\n", 16384), mirrored("memory none\n", 8192)),
    ("two writers on a stripe", ["run"], two_writers(), two_writers(256)),
    ("gen 7", ["gen", "7"], ""),
    ("a trace of a million lines", ["run", "--trace"], limited("", 72), limited("", 36)),
    ("the whole of the largest disk", ["run"], whole(), whole(64)),
    ("refused at the end of 4 MiB", ["run"], "\n" * (MOST_BYTES + 1)),
    ("4 MiB of comments", ["check"], filled("# a comment line of 32 bytes....\n" * 127000)),
    ("4 MiB with 159,000 writes", ["check"], filled(writes(159000)), writes(79500)),
    ("a line of two million members", ["check"], "disk a 64\nlinear n " + "a " * 2000000 + "\n"),
    ("4 MiB of byte 10", ["check"], "\n" * MOST_BYTES),
    ("4 MiB of `fs` lines, refused at line 2", ["check"], "fs\n" * (MOST_BYTES // 3)),
    ("150,000 writes over 31 linear devices", ["check"], chain(150000), chain(75000)),
    ("a layout of these", ["layout"], chain(150000), chain(75000)),
    ("1,024 rounds behind the first", ["check"], rounds()),
    ("a scrub of 131,072 sectors, alike", ["scrub"], compared()),
    ("the same, with no data on one member", ["scrub"], compared("bad b 0 131072 io\n")),
    ("4 MiB of lines that tell no event", ["replay"], filled("disk a 64\nevent k\n" + "eventual lines of 32 bytes......\n" * 127000)),
    ("layout of 2,048 fragments", ["layout"], "disk a 262144\nlimit l max=1 a\nwrite 0 l 0 2048 0\n"),
]


def once(program, words, text):
    """The seconds and the peak in MiB of one run, and what it wrote."""
    start = time.perf_counter()
    run = subprocess.run([program, *words], input=text.encode(), stdout=subprocess.PIPE, stderr=subprocess.DEVNULL)
    seconds = time.perf_counter() - start
    peak = float("nan")
    if os.access(GNU_TIME, os.X_OK):
        timed = subprocess.run([GNU_TIME, "-q", "-f", "%M", program, *words], input=text.encode(), stdout=subprocess.DEVNULL, stderr=subprocess.PIPE)
        peak = int(timed.stderr.split()[-1]) / 1024
    return seconds, peak, run.stdout.decode()


def steps_of(output):
    for line in output[-4096:].splitlines():
        if line.startswith("steps "):
            return int(line.split()[1])
    return 0


def main():
    program = sys.argv[1] if len(sys.argv) > 1 else os.path.join(TOP, "crates", "biostack", "out", "biostack")
    if not os.access(program, os.X_OK):
        sys.exit("no program at " + program + ": run ./biostack prove, which builds it")
    print(f"{'input':40} {'seconds':>8} {'peak MiB':>9} {'steps/s':>9} {'of half':>8}")
    for name, words, text, *half in CASES:
        runs = [once(program, words, text) for _ in range(ROUNDS)]
        seconds = min(run[0] for run in runs)
        peak = max(run[1] for run in runs)
        growth = "".join(f"{seconds / min(once(program, words, it)[0] for _ in range(ROUNDS)):8.2f}" for it in half)
        print(f"{name:40} {seconds:8.4f} {peak:9.1f} {steps_of(runs[0][2]) / seconds:9.0f} {growth}", flush=True)


if __name__ == "__main__":
    main()
