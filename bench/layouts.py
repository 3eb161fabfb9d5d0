#!/usr/bin/env python3
"""Times a layout of 262,144 fragments to a file and to a pipe, beside a twin in plain Rust, in seconds and in processor seconds. It is no test.

usage: bench/layouts.py [PROGRAM]      PROGRAM is crates/biostack/out/biostack if left out

It needs `rustc` for the twin, and `strace` for the number of system calls; without it the column is empty.
"""
import os
import re
import resource
import shutil
import subprocess
import sys
import tempfile
import time

BENCH = os.path.dirname(os.path.abspath(__file__))
TOP = os.path.dirname(BENCH)
ROUNDS = 25
TEXT = ("disk a 262144\nlimit l max=1 a\n" + "".join(f"write 0 l {2048 * k} 2048 0\n" for k in range(128))).encode()


def used():
    """The processor seconds of all runs that have ended."""
    used = resource.getrusage(resource.RUSAGE_CHILDREN)
    return used.ru_utime + used.ru_stime


def timed(words, out):
    """The seconds and the processor seconds of one run that writes to a file, or to a pipe, which is read to its end."""
    before, start = used(), time.perf_counter()
    subprocess.run(words, input=TEXT, stdout=out, check=True)
    return time.perf_counter() - start, used() - before


def to_file(words, folder):
    with open(os.path.join(folder, "lines"), "wb") as out:
        return timed(words, out)


def to_pipe(words, folder):
    return timed(words, subprocess.PIPE)


def writes(words, folder):
    """How many calls of write(2) one run makes."""
    if not shutil.which("strace"):
        return ""
    log = os.path.join(folder, "calls")
    subprocess.run(["strace", "-f", "-c", "-e", "trace=write", "-o", log, *words], input=TEXT, stdout=subprocess.DEVNULL, check=True)
    with open(log) as file:
        found = re.search(r"^\s*\S+\s+\S+\s+\S+\s+(\d+)\s.*write$", file.read(), re.MULTILINE)
    return found.group(1) if found else ""


def main():
    program = sys.argv[1] if len(sys.argv) > 1 else os.path.join(TOP, "crates", "biostack", "out", "biostack")
    if not os.access(program, os.X_OK):
        sys.exit("no program at " + program + ": run ./biostack once, which builds it")
    with tempfile.TemporaryDirectory() as folder:
        twin = os.path.join(folder, "twin")
        words = ["--edition", "2024", "-C", "opt-level=3", "-C", "target-cpu=x86-64-v2", "-o", twin]
        subprocess.run(["rustc", *words, os.path.join(BENCH, "layouts", "twin.rs")], check=True)
        ours, theirs = [program, "layout"], [twin]
        if subprocess.run(ours, input=TEXT, stdout=subprocess.PIPE).stdout != subprocess.run(theirs, input=TEXT, stdout=subprocess.PIPE).stdout:
            sys.exit("the two do not write the same")
        print(f"{'least of':24} {'Rattle':>8} {'Rust':>8} {'ratio':>6}")
        for name, run in [("file", to_file), ("pipe", to_pipe)]:
            # in turn, so that what else the machine does falls on both
            runs = [(run(ours, folder), run(theirs, folder)) for _ in range(ROUNDS)]
            for place, unit in enumerate(["seconds", "processor seconds"]):
                first, second = min(run[0][place] for run in runs), min(run[1][place] for run in runs)
                print(f"{name + ', ' + unit:24} {first:8.4f} {second:8.4f} {first / second:6.2f}", flush=True)
        print(f"calls of write: {writes(ours, folder)} and {writes(theirs, folder)}")


if __name__ == "__main__":
    main()
