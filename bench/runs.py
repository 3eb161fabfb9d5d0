#!/usr/bin/env python3
"""Runs of the program beside two twins in plain Rust: seconds, and that all write the same. It is no test. The one moves boxes as the program does
(`runs/twin.rs`), the harder one counts its elements and moves none (the same with `runs/counts.rs`).

usage: bench/runs.py [PROGRAM]            times the runs below, the programs in turn
       bench/runs.py [PROGRAM] --same N   compares what all write of N random texts, each with a trace

PROGRAM is crates/biostack/out/biostack if left out.
"""
import os
import random
import subprocess
import sys
import tempfile
import time

HERE = os.path.dirname(os.path.abspath(__file__))
sys.path.insert(0, HERE)
import run  # noqa: E402

ROUNDS = 9


def random_stack(rand):
    """Lines of devices, the names of all of them, and the tops with their sizes."""
    lines, free, pools = [], [], ["fs.bios", "fs.vecs"]
    for k in range(rand.randint(1, 6)):
        size = rand.choice([1, 5, 8, 16, 40, 64])
        lines.append(f"disk d{k} {size}")
        for _ in range(rand.choice([0, 0, 0, 1, 2])):
            start = rand.randrange(size)
            lines.append(f"bad d{k} {start} {rand.randint(1, size - start)} {rand.choice(['io', 'medium', 'nospace'])}")
        free.append((f"d{k}", size))
    for k in range(rand.randint(0, 8)):
        rand.shuffle(free)
        kind = rand.choice(["linear", "stripe", "zoned", "limit", "mirror", "mirror"])
        count = 1 if kind == "limit" else rand.randint(1, min(3, len(free)))
        members, free = free[:count], free[count:]
        sizes = [size for _, size in members]
        words = [f"reserve={rand.randint(1, 3)}"]
        if kind == "linear":
            size = sum(sizes)
        elif kind in ("stripe", "zoned"):
            chunk = rand.choice([1, 2, 3, 8])
            words.append(f"chunk={chunk}")
            size = count * chunk * (min(sizes) // chunk) if kind == "stripe" else sum(s // chunk * chunk for s in sizes)
        elif kind == "limit":
            words += [f"max={rand.randint(1, 9)}", f"chunk={rand.choice([0, 0, 4, 7])}"]
            size = sizes[0]
        else:
            words.append(f"records={rand.randint(1, 2)}")
            size = min(sizes)
        if kind != "mirror" and rand.random() < 0.3 or kind == "mirror" and count == 1 and rand.random() < 0.3:
            words.append(f"rescuer={'yes' if kind != 'mirror' else 'no'}")
        if size == 0:
            free = members + free
            continue
        name = f"v{k}"
        lines.append(f"{kind} {name} {' '.join(m for m, _ in members)} {' '.join(words)}")
        pools += [f"{name}.bios"] + ([f"{name}.records"] if kind == "mirror" else [])
        free.append((name, size))
    return lines, free, pools


def random_text(rand):
    """A text that is accepted, small enough to be run in no time."""
    lines, tops, pools = random_stack(rand)
    lines.append(f"fs bios={rand.randint(1, 3)} vecs={rand.randint(1, 2)}")
    if rand.random() < 0.5:
        lines.append("memory none")
    for pool in rand.sample(pools, rand.randint(0, len(pools))):
        pattern = "".join(rand.choice("+-") for _ in range(rand.randint(0, 5))) or "."
        lines.append(f"script {pool} {pattern} {rand.choice('+-')}")
    for number in range(rand.randint(1, 3)):
        if number:
            lines.append("sync")
            for pool in rand.sample(pools, rand.randint(0, 2)):
                lines.append(f"resize {pool} {rand.randint(1, 4)}")
        taken = {name: [False] * size for name, size in tops}
        for _ in range(rand.randint(0, 6)):
            name, size = rand.choice(tops)
            start = rand.randrange(size)
            count = rand.randint(1, size - start)
            if any(taken[name][start:start + count]):
                continue
            taken[name][start:start + count] = [True] * count
            lines.append(f"write {rand.randrange(8)} {name} {start} {count} {rand.randrange(2**64)}")
    return "\n".join(lines) + "\n"


def output(program, words, text):
    ran = subprocess.run([program, *words], input=text.encode(), stdout=subprocess.PIPE, stderr=subprocess.PIPE)
    return ran.returncode, ran.stdout, ran.stderr


def build_twins(folder):
    """Builds the twin, and the harder one, and answers their paths."""
    words = ["rustc", "--edition", "2021", "-C", "opt-level=3", "-C", "target-cpu=x86-64-v2", "-A", "warnings", os.path.join(HERE, "runs", "twin.rs")]
    paths = [os.path.join(folder, name) for name in ("twin", "counts")]
    for path, more in zip(paths, ([], ["--cfg", "counts"])):
        subprocess.run([*words, *more, "-o", path], check=True)
    return paths


def same(program, twins, count):
    for seed in range(count):
        rand = random.Random(seed)
        text = random_text(rand)
        words = ["run", "--seed", str(rand.randrange(2**64)), "--trace"]
        mine = output(program, words, text)
        if any(output(twin, words, text)[:2] != mine[:2] for twin in twins):
            sys.exit(f"text {seed}: {' '.join(words)}\n{text}\nthe program: {mine[0]} {mine[2].decode()}")
    print(f"{count} texts, the same")


CASES = [
    ("64 writes, 131,072 fragments", ["run"], run.limited("", 64)),
    ("the same without ordinary memory", ["run"], run.limited("memory none\n", 64)),
    ("16,384 writes to a mirror, no memory", ["run"], run.mirrored("memory none\n", 16384)),
    ("two writers on a stripe", ["run"], run.two_writers()),
    ("gen 7", ["gen", "7"], ""),
    ("a trace of a million lines", ["run", "--trace"], run.limited("", 72)),
    ("128 MiB, written whole", ["run"], run.whole()),
    ("150,000 writes over 31 linear devices", ["check"], run.chain(150000)),
    ("a layout of these", ["layout"], run.chain(150000)),
    ("4 MiB of byte 10", ["check"], "\n" * run.MOST_BYTES),
    ("2,048 sectors at the far end", ["run"], "disk a 262144\nwrite 0 a 260096 2048 7\n"),
]


def once(program, words, text):
    """The seconds of one run whose output goes to a file, as the processors have them."""
    with tempfile.TemporaryFile() as into, tempfile.TemporaryFile() as source:
        source.write(text.encode())
        source.seek(0)
        start = time.perf_counter()
        subprocess.run([program, *words], stdin=source, stdout=into, stderr=subprocess.DEVNULL)
        return time.perf_counter() - start


def main():
    words = sys.argv[1:]
    count = 0
    if "--same" in words:
        at = words.index("--same")
        count = int(words[at + 1])
        del words[at:at + 2]
    program = words[0] if words else os.path.join(run.TOP, "crates", "biostack", "out", "biostack")
    with tempfile.TemporaryDirectory() as folder:
        twin, counts = build_twins(folder)
        if count:
            return same(program, [twin, counts], count)
        print(f"{'run':38} {'Rattle, s':>10} {'Rust, s':>10} {'ratio':>6} {'counts, s':>10} {'ratio':>6} {'events/s':>10}")
        programs = (program, twin, counts)
        for name, order, text in CASES:
            mine, *others = (output(it, order, text)[1] for it in programs)
            if any(other != mine for other in others):
                sys.exit(f"{name}: the three do not write the same")
            rounds = [[once(it, order, text) for it in programs] for _ in range(ROUNDS)]
            ours, theirs, least = (min(times) for times in zip(*rounds))
            print(f"{name:38} {ours:10.4f} {theirs:10.4f} {ours / theirs:6.2f} {least:10.4f} {ours / least:6.2f} {run.steps_of(mine.decode()) / ours:10.0f}")


if __name__ == "__main__":
    main()
