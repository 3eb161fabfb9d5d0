#!/usr/bin/env python3
"""Times `replay` of long traces beside a twin in plain Rust (`cores/twin.rs` with the word `replay`), and that both write the same. It is no test.

usage: bench/replays.py [PROGRAM]      PROGRAM is crates/biostack/out/biostack if left out

Each text is a scenario with the first lines of what PROGRAM's `run --trace` writes of it. The two programs run in turn, and a figure is the least of
ROUNDS runs. The last column is how many times as long a trace takes as one of half its lines: 2 is linear.
"""
import os
import subprocess
import sys
import tempfile
import time

HERE = os.path.dirname(os.path.abspath(__file__))
sys.path.insert(0, HERE)
import run  # noqa: E402

ROUNDS = 9
COUNTS = (40000, 80000, 150000)


def stacked(count):
    """Writes to a stripe of four mirrors over limited disks: 19 pools."""
    lines = [f"disk d{k} 16384\nlimit l{k} max=16 d{k}\n" for k in range(8)]
    lines += [f"mirror m{k} l{2 * k} l{2 * k + 1} reserve=1\n" for k in range(4)]
    lines.append("stripe s m0 m1 m2 m3 chunk=8\n")
    return "".join(lines) + "".join(f"write {k % 4} s {64 * k} 64 0\n" for k in range(count))


CASES = [
    ("a limit of one sector", run.limited("", 16)),
    ("a mirror of two that keeps one bio, no memory", run.mirrored("memory none\n", 8192)),
    ("one disk, eight writers", run.writes(24576)),
    ("19 pools", stacked(1000)),
]


def with_trace(program, text, count):
    """The text with the first lines of its trace, so many at the most, and as many as 4 MiB have room for."""
    trace = subprocess.run([program, "run", "--trace"], input=text.encode(), stdout=subprocess.PIPE).stdout
    lines = [line for line in trace.splitlines(keepends=True) if line.startswith(b"event ")][:count]
    while len(text) + sum(map(len, lines)) > run.MOST_BYTES:
        lines = lines[: len(lines) * 99 // 100]
    return text.encode() + b"".join(lines), len(lines)


def once(program, text):
    """The seconds of one replay, and what it wrote but for its `end` line."""
    start = time.perf_counter()
    out = subprocess.run([program, "replay"], input=text, stdout=subprocess.PIPE).stdout
    return time.perf_counter() - start, [line for line in out.splitlines() if not line.startswith(b"end ")]


def main():
    program = sys.argv[1] if len(sys.argv) > 1 else os.path.join(os.path.dirname(HERE), "crates", "biostack", "out", "biostack")
    if not os.access(program, os.X_OK):
        sys.exit("no program at " + program + ": run ./biostack prove, which builds it")
    with tempfile.TemporaryDirectory() as folder:
        twin = os.path.join(folder, "twin")
        subprocess.run(["rustc", "-C", "opt-level=3", "-C", "target-cpu=x86-64-v2", "-o", twin, os.path.join(HERE, "cores", "twin.rs")], check=True)
        print(f"{'trace':46} {'events':>7} {'ns an event':>11} {'twin':>6} {'ratio':>6} {'of half':>8}")
        for name, text in CASES:
            for count in COUNTS:
                whole, events = with_trace(program, text, count)
                half, _ = with_trace(program, text, events // 2)
                rows = [(once(program, whole), once(twin, whole), once(program, half)) for _ in range(ROUNDS)]
                if rows[0][0][1] != rows[0][1][1]:
                    sys.exit(f"{name}: {rows[0][0][1]} and {rows[0][1][1]}")
                own, other, less = (min(row[at][0] for row in rows) for at in range(3))
                print(f"{name:46} {events:7} {1e9 * own / events:11.0f} {1e9 * other / events:6.0f} {own / other:6.2f} {own / less:8.2f}", flush=True)


if __name__ == "__main__":
    main()
